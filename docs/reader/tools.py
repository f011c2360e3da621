"""The toolchain's names and their explanations (toolchain.txt)."""
from pathlib import Path

from names import Tool

LANGUAGE = "of the language"


class Tools:
    def __init__(self):
        self.explained, self.known = {}, {}
        module = None
        for line in (Path(__file__).parent / "toolchain.txt").read_text(encoding="utf-8").split("\n"):
            if line and not line.startswith(";"):
                module = self.line(module, line)

    def line(self, module, line):
        if " | " not in line:
            return line
        name, says = line.split(" | ", 1)
        builds = name.endswith(" *")
        name = name[:-2] if builds else name
        self.explained[module, name] = says
        self.known[module, name] = Tool(module, name, builds)
        return module

    def used(self, module, name):
        """The tool that a `use` line names."""
        if (module, name) not in self.known:
            self.known[module, name] = Tool(module, name, False)
        return self.known[module, name]

    def explains(self, tool):
        return (tool.module, tool.name) in self.explained

    def built_in(self, name):
        return self.known.get((LANGUAGE, name))
