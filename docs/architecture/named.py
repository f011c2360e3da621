"""What the page names: files, names in files, functions of crates, cases of enums, and which function calls which. All of it must be there."""

import re

from repository import TOP, function, has_item, source

PATH = r"(?<![\w./-])(?:crates|docs|tests|oracle|bench|examples|rust|include)/[\w+.*/-]*[\w*/]"
NAME = r"`([^`\s]+)`"
# words that stand for any name, in capitals
ANY = re.compile(r"\b(?:NAME|CRATE|FILE|FUNCTION)\b")


def check(text, problems):
    """Adds to the problems, and says what was looked for."""
    found = [
        (len(links(text, problems)), "links"),
        (len(paths(text, problems)), "paths"),
        (len(names(text, problems)), "names in files"),
        (len(items(text, problems)), "functions"),
        (len(cases(text, problems)), "cases"),
        (len(calls(text, problems)), "calls"),
    ]
    return ", ".join(f"{number} {what}" for number, what in found)


def say(problems, text, start, problem):
    problems.append(f"docs/ARCHITECTURE.md:{text.count(chr(10), 0, start) + 1}: {problem}")


def links(text, problems):
    found = list(re.finditer(r"\]\(([^)#:]+)(#[^)]*)?\)", text))
    for link in found:
        if not (TOP / "docs" / link.group(1)).exists():
            say(problems, text, link.start(), f"the link goes to {link.group(1)}, which is not there")
    return found


def paths(text, problems):
    found = [path for path in re.finditer(PATH, text) if not ANY.search(path.group(0))]
    for path in found:
        if not list(TOP.glob(path.group(0).rstrip("/"))):
            say(problems, text, path.start(), f"there is no {path.group(0)}")
    return found


def names(text, problems):
    """A path with names in backticks right behind it: the file, or a file of the folder, has them."""
    found = []
    for place in re.finditer(rf"({PATH})((?:(?:,| and)? {NAME})+)", text):
        files = [file for path in TOP.glob(place.group(1).rstrip("/")) for file in ([path] if path.is_file() else path.rglob("*.*t"))]
        words = "\n".join(file.read_text() for file in files)
        for name in re.findall(NAME, place.group(2)):
            if "::" in name:
                continue
            found.append(name)
            if not re.search(rf"(?<![\w-]){re.escape(name)}(?![\w-])", words):
                say(problems, text, place.start(), f"{place.group(1)} has no {name}")
    return found


def items(text, problems):
    found = list(re.finditer(r"\b([a-z_0-9]+)::(\w+)", text))
    for item in found:
        crate, name = item.groups()
        if not has_item(crate, name):
            say(problems, text, item.start(), f"crates/{crate}/src has no {name}")
    return found


def cases(text, problems):
    found = list(re.finditer(r"\b([A-Z]\w*)::([A-Z]\w*)", text))
    everything = "\n".join(source(path.name) for path in sorted((TOP / "crates").iterdir()))
    for case in found:
        enum = re.search(rf"^pub enum {case.group(1)} {{.*?^}}", everything, re.MULTILINE | re.DOTALL)
        if not enum or not re.search(rf"\b{case.group(2)}\b", enum.group(0)):
            say(problems, text, case.start(), f"no enum {case.group(1)} has the case {case.group(2)}")
    return found


def calls(text, problems):
    """The blocks marked `calls`: a function stands below one that calls it and further in, or behind it and an arrow."""
    found = []
    for block in re.finditer(r"^```calls\n(.*?)^```", text, re.MULTILINE | re.DOTALL):
        above = []  # how far in a line stands, and its last function
        for line in re.finditer(r"^( *)(\w+(?:::\w+)+(?: → \w+(?:::\w+)+)*)?.*$", block.group(1), re.MULTILINE):
            if not line.group(2):
                continue
            while above and above[-1][0] >= len(line.group(1)):
                above.pop()
            chain = [name for _, name in above[-1:]] + line.group(2).split(" → ")
            above.append((len(line.group(1)), chain[-1]))
            for caller, callee in zip(chain, chain[1:]):
                found.append(callee)
                if not is_called(caller, callee):
                    say(problems, text, block.start(1) + line.start(), f"{caller} does not call {callee}")
    return found


def is_called(caller, callee):
    """CRATE::NAME stands in the caller's body, or, of CRATE::TYPE::NAME, NAME behind a dot; either with what stands in ::<> behind it."""
    crate, *of, name = callee.split("::")
    own = caller.split("::")[0] == crate
    place = r"\." if of else r"(?<![\w:.])" if own else rf"\b{crate}::"
    body = function(caller.split("::")[0], caller.split("::")[-1]).partition("{\n")[2]
    return re.search(rf"{place}{name}(?:::<[^>]*>)?\(", body) is not None
