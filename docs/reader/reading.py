"""Reads the finished page back, as a browser would: ids, links, tags, and the listings token by token."""
from html.parser import HTMLParser

VOID = {"meta", "br", "wbr", "input"}
MARKED = {"a", "dfn", "var", "b", "s"}


def leads_outside(name, value):
    return name in ("src", "srcset", "action", "data") or (name == "href" and not value.startswith("#"))


class Piece:
    """A run of text in a listing: kind is its tag (or the class of its span, or text), target what it leads to."""

    def __init__(self, kind, text, target, head):
        self.kind, self.text, self.target, self.head = kind, text, target, head


class Reading(HTMLParser):
    def __init__(self, text):
        super().__init__(convert_charrefs=True)
        self.ids, self.links, self.problems, self.outside = [], [], [], []
        self.open, self.listings, self.pieces = [], {}, None
        self.feed(text)
        self.close()
        self.problems += [f"<{tag}> is not closed" for tag, _ in self.open]

    def handle_starttag(self, tag, attributes):
        told = dict(attributes)
        if "id" in told:
            self.ids.append(told["id"])
        if "href" in told:
            self.links.append(told["href"])
        self.outside += [f'<{tag} {name}="{value}">' for name, value in attributes if leads_outside(name, value)]
        if tag in ("link", "img", "iframe", "object", "embed", "base"):
            self.outside.append(f"<{tag}>")
        if tag not in VOID:
            self.open.append((tag, told))
        if tag == "pre" and "data-path" in told:
            self.pieces = self.listings.setdefault(told["data-path"], [])

    def handle_endtag(self, tag):
        if not self.open or self.open[-1][0] != tag:
            self.problems.append(f"</{tag}> at line {self.getpos()[0]} closes nothing")
            return
        self.open.pop()
        if tag == "pre":
            self.pieces = None

    def handle_data(self, data):
        if self.pieces is not None:
            kind, told = self.kind()
            self.pieces.append(Piece(kind, data, told.get("href", told.get("id")), told.get("class") == "h"))

    def kind(self):
        """What the text here is: within a comment all is comment."""
        classes = [told.get("class") for tag, told in self.open if tag == "span"]
        if "c" in classes:
            return "comment", {}
        tag, told = self.open[-1]
        if tag == "span" and told.get("class") == "e":
            return "elsewhere", told
        return (tag, told) if tag in MARKED else ("text", {})
