"""Rattle sources (crates/CRATE/src): enums, structs, traits, constants, and functions with their contracts, each with the comment above it; no bodies."""
import re

import repo

DECLARED = re.compile(r"^(?:pub )?(enum|struct|trait) (\w+)(?:<[^>]*>)?(?:: \w+)? ?[{(].*$")
FUNCTION = re.compile(r'^(?:    )?(?:pub )?(?:extern "C" )?fn (\w+)')
IMPL = re.compile(r"^impl(?:<.*?>)? (?:(.+) for )?(\w+)(?:<.*>)? \{$")
CONSTANT = re.compile(r"^(?:pub )?const (\w+): .*;$")
CASE = re.compile(r"^    (?:pub )?(\w+)(\(|,|:| =)")
GHOST = re.compile(r"^    ghost (\w+)( =|:)")


class Declared:
    """An enum, a struct or a trait. members are its cases, its fields or, of a trait, the ghost values that it asks for, each with the place of its line."""

    def __init__(self, kind, name, path, line, lines, members):
        self.kind, self.name, self.path, self.line, self.lines, self.members = kind, name, path, line, lines, members


class Function:
    """A function's comment, signature and contract, as they stand; of a method they begin where a line does. owner is the type, or trait, whose
    method it is, trait the trait that it is of, which then has its contract."""

    def __init__(self, name, crate, path, line, lines, trait, owner):
        self.name, self.crate, self.path, self.line, self.lines, self.trait, self.owner = name, crate, path, line, lines, trait, owner

    @property
    def title(self):
        return f"{self.owner}::{self.name}" if self.owner else self.name


class Source:
    """One file: what it imports (uses: pairs of a module and a name), what it declares, its constants, and its functions."""

    def __init__(self, crate, path):
        self.crate, self.path = crate, path
        lines = repo.read(path).split("\n")
        self.ghost = [line[len("ghost ") :].rstrip(";") for line in lines if line.startswith("ghost use ")]
        self.uses = [pair for line in lines if line.startswith("use ") for pair in used(line[len("use ") :].rstrip(";"))]
        self.constants = {CONSTANT.match(line)[1]: line for line in lines if CONSTANT.match(line)}
        self.declared, self.functions = [], []
        trait, owner = None, None
        for place, line in enumerate(lines):
            if line == "}":
                trait, owner = None, None
            if IMPL.match(line):
                trait, owner = IMPL.match(line).groups()
            elif DECLARED.match(line):
                self.declared.append(declared_at(path, lines, place))
                owner = self.declared[-1].name if self.declared[-1].kind == "trait" else None
            elif FUNCTION.match(line) and (owner or not line.startswith(" ")):
                self.functions.append(function_at(crate, path, lines, place, trait, owner))


def used(path):
    """The module and the name of each thing that a `use` line names: `a::b`, or `a::{b, c}` with several."""
    module, _, names = path.rpartition("::{") if path.endswith("}") else path.rpartition("::")
    return [(module, name.strip()) for name in names.rstrip("}").split(",")]


def comment_start(lines, place):
    """Where the comment right above a line begins, with attributes, which may take several lines."""
    while place > 0 and belongs(lines[place - 1].lstrip()):
        place -= 1
        while not lines[place].lstrip().startswith(("//", "#[")):
            place -= 1
    return place


def belongs(line):
    return line.startswith("// ") and not line.startswith("// ----") or line.startswith("#[") or line == ")]"


def declared_at(path, lines, place):
    end = place
    while lines[end] != "}" and not lines[end].endswith(");"):
        end += 1
    start = comment_start(lines, place)
    kind, name = DECLARED.match(lines[place]).groups()
    members = {}
    for at in range(place + 1, end):
        match = (GHOST if kind == "trait" else CASE).match(lines[at])
        if match:
            members[match[1]] = at - start
    return Declared(kind, name, path, start + 1, lines[start : end + 1], members)


def function_at(crate, path, lines, place, trait, owner):
    start = comment_start(lines, place)
    end = place
    while lines[end].lstrip() != "{" and not lines[end].endswith((" {", ";")):
        end += 1
    last = lines[end].removesuffix("{").removesuffix(";").rstrip()
    shown = lines[start:end] + ([last] if last else [])
    inset = len("    ") if owner else 0
    return Function(FUNCTION.match(lines[place])[1], crate, path, start + 1, [line[inset:] for line in shown], trait, owner)


def sources():
    return {crate: [Source(crate, path) for path in repo.source_files(crate)] for crate in repo.crates()}
