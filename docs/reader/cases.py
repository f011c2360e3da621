"""The tables of cases (crates/twelve/specs/Cases.antt) as readable lines: calls with their answers, beside the lines of the source that they stand in."""
import struct

from lex import Group, Token, grouped, is_text, split

ANSWERS = {"handle": "{}", "number": "{}", "signed_number": "{}", "refused": "refused, {}", "constant_bits": "constant {}"}


class Case:
    """calls are pairs of texts, a call and its answer; first and last are lines of the file."""

    def __init__(self, calls, first, last):
        self.calls, self.first, self.last = calls, first, last


def cases(file, name):
    """The cases of one table."""
    item = next(item for item in file.items if item.kind == "clause" and item.tokens[0].text == name)
    found = []
    first = item.tokens[0].line + 1
    for part in split(grouped(item.tokens[2:]), "∷")[:-1]:
        last = last_line(part)
        found.append(Case(calls_of(part), first, last))
        first = last + 1
    return found


def last_line(part):
    return part[-1].close.line if isinstance(part[-1], Group) else part[-1].line


def calls_of(part):
    lines = [line_of(line) for line in split(part[1].items, "∷") if not is_text(line[0], "[]")]
    if is_text(part[0], "filled"):
        owner, before, after = part[2:]
        lines.append((f"offsets({owner.text}) into the words {listed(before)}", f"leaves {listed(after)}"))
    return lines


def line_of(line):
    """CALL gives REPLY; other lines as they stand."""
    parts = split(line, "gives")
    if len(parts) != 2:
        return words(line), ""
    return call(parts[0]), answer(parts[1])


def call(items):
    name = items[0].text
    arguments = [argument(item, name) for item in items[1:]]
    return f"{function_of(name)}({', '.join(arguments)})"


def function_of(name):
    """The function that a call's name means: _is stands behind it where a definition has the function's name already."""
    return name.removesuffix("_is")


def argument(item, name):
    if isinstance(item, Group):
        return listed(item, 4 if name == "get_struct" else 1)
    return real(item.text) if name == "get_float" and item.text.startswith("0x") else item.text


def real(text):
    """The double with these bits, as it is usually written."""
    return repr(struct.unpack(">d", int(text, 16).to_bytes(8, "big"))[0])


def listed(group, each=1):
    """A list, or a number below 0, or else the words of the group."""
    items = group.items
    if is_text(items[0], "minus"):
        return f"-{items[1].text}"
    parts = [part[0].text for part in split(items, "∷") if len(part) == 1 and isinstance(part[0], Token)]
    if not parts or parts[-1] != "[]":
        return words(items)
    runs = [" ".join(parts[at : at + each]) for at in range(0, len(parts) - 1, each)]
    return "[" + ", ".join(runs) + "]"


def words(items):
    return " ".join(f"({words(item.items)})" if isinstance(item, Group) else item.text for item in items)


def answer(items):
    kind = items[0].text
    if kind == "flag":
        return "yes" if items[1].text == "true" else "no"
    value = argument(items[1], "") if len(items) > 1 else ""
    return ANSWERS[kind].format(value) if kind in ANSWERS else kind
