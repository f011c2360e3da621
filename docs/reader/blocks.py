"""The declarations of an antt text, by its layout: an item begins where a line is indented as its block is, and goes on while lines are indented more."""
from lex import significant, tokens

MARKS = ("unfoldable", "abbrev", "axiom", "pub")
HEADS = ("use", "mod", "module", "record", "data", "infix", "infixl", "infixr", "mutual", "open", "unfolding", "ruleset")


class Item:
    """kind is one of HEADS, or `signature`, or `clause`. tokens are all its tokens, of a block those up to `where`; body has the items of a block."""

    def __init__(self, kind, found, body):
        self.kind, self.tokens, self.body = kind, found, body


def lines_of(found):
    """The significant tokens line by line, with the column of the first."""
    lines = []
    start = 0
    current = []
    for token in found + [None]:
        if token is None or token.kind == "newline":
            if current:
                lines.append((current[0].at - start, current))
            current = []
            start = token.end if token else start
        elif significant([token]):
            current.append(token)
    return lines


def items_of(lines):
    """The items of a block: its lines, from those with the smallest indentation on."""
    items = []
    place = 0
    while place < len(lines):
        column, first = lines[place]
        below = place + 1
        while below < len(lines) and lines[below][0] > column:
            below += 1
        items.append(item_of(first, lines[place + 1 : below]))
        place = below
    return items


def item_of(first, rest):
    kind = kind_of(first + [token for _, line in rest for token in line])
    if kind in ("module", "record", "data", "mutual"):
        heads = next((at for at, line in enumerate([first] + [line for _, line in rest]) if line[-1].text in ("where", "mutual")), len(rest))
        return Item(kind, first + [token for _, line in rest[:heads] for token in line], items_of(rest[heads:]))
    return Item(kind, first + [token for _, line in rest for token in line], [])


def kind_of(found):
    words = [token.text for token in found if token.text not in MARKS]
    if words and words[0] in HEADS:
        return words[0]
    depth = 0
    for token in found:
        depth += (token.text in ("(", "{")) - (token.text in (")", "}"))
        if depth == 0 and token.text in (":", "="):
            return "signature" if token.text == ":" else "clause"
    return "clause"


def parsed(text):
    """All tokens of a text, and its items."""
    found = tokens(text)
    return found, items_of(lines_of(found))
