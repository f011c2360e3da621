"""The references in docs/TRACE.md: to definition files, functions, proofs, scripts' lines, edits and other files, and the names in code marks behind them.

A name in code marks belongs to the last file or crate before it in its cell or paragraph that has it, else to the last of the cells above, else to one that
the head of the column names."""
import re

import repo

CRATE = "|".join(sorted(repo.crates(), key=len, reverse=True))
PARTS = re.compile(
    rf"(?P<code>`[^`]+`)"
    rf"|(?P<test>\b\d\d-[\w-]+\.txt(?::\d+)?)"
    rf"|(?P<edit>\b(?P<edit_crate>{CRATE})/(?P<edit_name>[a-z][a-z0-9_]*)\.edit\b)"
    rf"|(?P<source>\bcrates/(?P<source_crate>\w+)/src/\w+\.rt\b)"
    rf"|(?P<proof>\b(?:crates/)?(?P<proof_crate>\w+)/proofs(?P<proof_file>(?:/[\w+]+)*))"
    rf"|(?P<spec>\b(?P<spec_crate>\w+)/(?P<spec_file>[A-Z]\w*)\b(?!\.md))"
    rf"|(?P<bare>\b(?P<bare_crate>{CRATE})/(?P<bare_name>[a-z][a-z0-9_]*)\b(?!/))"
    rf"|(?P<path>\b(?:docs|oracle|tests|bench|crates)/[\w./+-]*[\w]|\bREADME\.md\b)"
    rf"|(?P<crate>\b(?:{CRATE})\b(?= `))"
    rf"|(?P<also>(?<=, )[A-Z]\w*\b)"
    rf"|(?P<more>(?<=, )[a-z][a-z0-9]*(?:_[a-z0-9]+)+\b)"
)
KINDS = ("code", "test", "edit", "source", "proof", "spec", "bare", "path", "crate", "also", "more")
EDIT_HEADS = ("edit", "wrong program refused")
NAME = re.compile(r"[^\s`]+")
# words in code marks that are no names of the repository: of the languages, of scripts, and of the original Rust
WORDS = set("ensures requires if u64 &[u64] calls open close poke list fresh search TyInt TyFloat TyStruct Ty field wrapping_sub_u64".split())


class Reference:
    """kind: definition, function, file, proof, test, edit, path. target is what it leads to."""

    def __init__(self, start, end, kind, target):
        self.start, self.end, self.kind, self.target = start, end, kind, target


class References:
    """Reads cells. problems has what is named and is not there."""

    def __init__(self, world):
        self.world, self.problems = world, []
        self.functions = {crate: functions_by_name(sources) for crate, sources in world.sources.items()}
        self.tests, self.named_functions, self.named_proofs = {}, [], []

    def paragraph(self, text, line):
        return self.read(text, line, [])

    def table(self, table):
        """(row, references of each cell) of a table. First cells are sentences, unless the head names a file or calls them edits."""
        heads = [self.contexts_of(head) for head in table.header]
        above = [[] for _ in heads]
        found = []
        for row in table.rows:
            cells = []
            for place, text in enumerate(row.cells):
                edits = table.header[place] in EDIT_HEADS
                is_sentence = place == 0 and not heads[0] and not edits
                cells.append([] if is_sentence else self.read(text, row.line, heads[place] + above[place], edits))
                above[place] = self.contexts[-1:] if not is_sentence else []
            found.append((row, cells))
        return found

    def contexts_of(self, head):
        self.read(head, 0, [])
        return self.contexts

    def read(self, text, line, contexts, edits=False):
        """The references of a text, in order. contexts has the files and crates named before it; with edits, CRATE/NAME is an edit without its ending."""
        self.contexts, self.where, self.edits_here, self.edit_crate = list(contexts), f"docs/TRACE.md:{line}", edits, None
        found = []
        for match in PARTS.finditer(text):
            kind = next(kind for kind in KINDS if match[kind])
            target = getattr(self, kind)(match)
            if target:
                found.append(Reference(match.start(), match.end(), *target))
        return found

    def problem(self, text):
        self.problems.append(f"{self.where}: {text}")

    # ---- what a match is

    def test(self, match):
        script, _, line = match.group("test").partition(":")
        if not (repo.TOP / "tests" / script).exists():
            return self.problem(f"tests/{script} is not there")
        if not line:
            return "path", f"tests/{script}"
        text = script_line(script, int(line))
        if text is None or "; =>" not in text or text.startswith(";"):
            return self.problem(f"tests/{script} has no answer in line {line}")
        self.tests[script, int(line)] = text
        return "test", (script, int(line))

    def edit(self, match):
        return self.edit_of(match["edit_crate"], match["edit_name"])

    def edit_of(self, crate, name):
        path = f"crates/{crate}/must-fail/{name}.edit"
        if not (repo.TOP / path).exists():
            return self.problem(f"{path} is not there")
        return "edit", path

    def bare(self, match):
        if not self.edits_here:
            return self.problem(f"{match.group()}: an edit has its ending .edit, a file of definitions a capital")
        self.edit_crate = match["bare_crate"]
        return self.edit_of(match["bare_crate"], match["bare_name"])

    def more(self, match):
        """An edit's name alone, behind a comma: of the crate before it."""
        return self.edit_of(self.edit_crate, match.group()) if self.edit_crate else None

    def source(self, match):
        self.contexts.append(("crate", match["source_crate"]))
        return self.path(match)

    def proof(self, match):
        return self.proof_at(match["proof_crate"], match["proof_file"].strip("/"))

    def proof_at(self, crate, name):
        if crate == "CRATE":
            return None
        folder = f"crates/{crate}/proofs"
        for path in (f"{folder}/{name}.antt", f"{folder}/{name}".rstrip("/")):
            if (repo.TOP / path).exists():
                if path.endswith(".antt"):
                    self.contexts.append(("proof", crate, name))
                return "proof", (path, None)
        return self.problem(f"{crate}/proofs/{name}: no file and no folder of proofs")

    def spec(self, match):
        return self.spec_at(match["spec_crate"], match["spec_file"])

    def spec_at(self, crate, name):
        if crate == "CRATE":
            return None
        if (crate, name) not in self.world.specs:
            return self.problem(f"{crate}/{name}: no file of definitions")
        self.contexts.append(("spec", crate, name))
        return "file", self.world.specs[crate, name]

    def also(self, match):
        """A file's name alone, behind a comma: of the crate before it."""
        last = self.contexts[-1] if self.contexts else ("none",)
        if last[0] == "proof":
            return self.proof_at(last[1], match.group())
        return self.spec_at(last[1], match.group()) if last[0] == "spec" else None

    def path(self, match):
        path = match.group()
        if "CRATE" in path:
            return None
        if not (repo.TOP / path).exists():
            return self.problem(f"{path} is not there")
        return "path", path

    def crate(self, match):
        self.contexts.append(("crate", match.group()))
        return None

    def code(self, match):
        name = match.group().strip("`")
        if not NAME.fullmatch(name) or "/" in name:
            return None
        for kind, *place in reversed(self.contexts):
            found = getattr(self, "in_" + kind)(name, *place)
            if found:
                return found
        return None if name in WORDS else self.problem(f"`{name}`: no file or crate that is named before it has it")

    # ---- a name behind a file or a crate

    def in_spec(self, name, crate, file):
        """A definition, or a case of an enum or a name of the toolchain that the file goes by."""
        for made in self.world.specs[crate, file].definitions:
            if made.name == name:
                return "definition", made
        made = self.world.specs[crate, file].scope.get(name)
        return ("definition", made) if made is not None and made.kind in ("case", "enum", "struct", "tool") else None

    def in_crate(self, name, crate):
        if name in self.functions[crate]:
            self.named_functions.append(self.functions[crate][name])
            return "function", self.functions[crate][name]
        for made in self.world.declared[crate].values():
            if name == made.name or name in made.members:
                return "definition", made if name == made.name else made.members[name]
        return None

    def in_proof(self, name, crate, file):
        found = next((made for made in self.world.proof(crate, file).definitions if made.name == name), None)
        if found:
            self.named_proofs.append(found)
        return ("proof", (found.home.path, found)) if found else None


def functions_by_name(sources):
    """The functions of a crate: by their names those that no type has, methods by TYPE::NAME and, where one alone has the name, by that."""
    found = {}
    functions = [function for source in sources for function in source.functions]
    for name in {function.name for function in functions} | {function.title for function in functions}:
        free = [function for function in functions if function.title == name]
        named = free or [function for function in functions if function.name == name]
        if len(named) == 1:
            found[name] = named[0]
    return found


def script_line(script, number):
    lines = repo.read(f"tests/{script}").split("\n")
    return lines[number - 1] if 0 < number <= len(lines) else None
