"""The tokens of an antt text. Joined in order they are the text again, so that a page can show it exactly as it stands."""
import re

TOKEN = re.compile(
    r"(?P<newline>\n)|(?P<space>[ \t]+)|(?P<comment>--[^\n]*)|(?P<punct>[(){}.;,@])|(?P<name>«[^»]*»|[^\s(){}.;,@\"«»]+)|(?P<other>.)"
)
NUMBER = re.compile(r"0[xob][0-9a-fA-F_]+|[0-9][0-9_]*")
CLOSING = {"(": ")", "{": "}"}


class Token:
    """role and target are set when names are looked up: role says what the token is, target what a link leads to; type is the type of a name
    bound nearby and of what a reference lends."""

    __slots__ = ("kind", "text", "line", "at", "role", "target", "type")

    def __init__(self, kind, text, line, at):
        self.kind, self.text, self.line, self.at = kind, text, line, at
        self.role, self.target, self.type = None, None, None

    @property
    def end(self):
        return self.at + len(self.text)


class Group:
    """What stands between two brackets."""

    __slots__ = ("open", "items", "close")

    def __init__(self, opening, items, closing):
        self.open, self.items, self.close = opening, items, closing

    @property
    def at(self):
        return self.open.at

    @property
    def end(self):
        return self.close.end


def tokens(text, line=1):
    found = []
    for match in TOKEN.finditer(text):
        kind = match.lastgroup
        if kind == "name" and NUMBER.fullmatch(match.group()):
            kind = "number"
        found.append(Token(kind, match.group(), line, match.start()))
        line += kind == "newline"
    return found


def significant(found):
    return [token for token in found if token.kind not in ("newline", "space", "comment")]


def grouped(found):
    """The significant tokens as a tree: brackets become groups."""
    stack = [[]]
    openings = []
    for token in found:
        if token.kind == "punct" and token.text in CLOSING:
            openings.append(token)
            stack.append([])
        elif token.kind == "punct" and openings and token.text == CLOSING[openings[-1].text]:
            items = stack.pop()
            stack[-1].append(Group(openings.pop(), items, token))
        else:
            stack[-1].append(token)
    if openings:
        raise ValueError(f"line {openings[-1].line}: a bracket is not closed")
    return stack[0]


def is_text(item, *texts):
    return isinstance(item, Token) and item.text in texts


def position(items, *texts):
    """The place of the first item that is one of these texts, or -1."""
    for place, item in enumerate(items):
        if is_text(item, *texts):
            return place
    return -1


def place_of(items, start, text):
    """The place of the first item from start on that is this text, which has to be there."""
    place = position(items[start:], text)
    if place < 0:
        raise ValueError(f"line {items[start].line}: no {text} behind {items[start].text}")
    return start + place


def split(items, *texts):
    """The parts between the items that are one of these texts."""
    parts = [[]]
    for item in items:
        if is_text(item, *texts):
            parts.append([])
        else:
            parts[-1].append(item)
    return parts
