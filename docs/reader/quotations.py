"""The words of documents 01 and 02 that comments quote: each is marked, and leads to the row of docs/TRACE.md that has it, and the row back to it."""
import re

from trace_md import Heading, fragments, plain, quoted, quotes

# words in quotation marks that are no sentence of the document: a title of its modules, and a call's name
NO_SENTENCES = ("type_float.rs, type_integer.rs", "is_f32")


class Mark:
    """A part of a comment token that belongs to a quotation, and what it leads to: a row or a heading."""

    def __init__(self, start, end, target):
        self.start, self.end, self.target = start, end, target


def comment_blocks(found):
    """Comments that follow each other line by line, as lists of tokens."""
    blocks, current, lines = [], [], 0
    for token in found:
        if token.kind == "comment":
            current.append(token)
            lines = 0
        elif token.kind == "newline":
            lines += 1
        if current and (token.kind not in ("comment", "newline", "space") or lines > 1):
            blocks.append(current)
            current = []
    return blocks + ([current] if current else [])


def joined(block):
    """The text of a block without its marks, and for each token where its text begins, there and in the token."""
    text, places = "", []
    for token in block:
        skipped = len(token.text) - len(token.text.lstrip("- "))
        text += " " if text else ""
        places.append((len(text), token, skipped))
        text += token.text[skipped:]
    return text, places


class Quotations:
    def __init__(self, blocks, rows):
        self.rows = rows
        self.headings = [block for block in blocks if isinstance(block, Heading)]
        self.texts = {row.number: [plain(" | ".join(quoted(cell))) for cell in row.cells] for row in rows}
        self.firsts = {row.number: [part for words in quoted(row.cells[0]) for part in fragments(words)] for row in rows}
        self.named = {}
        self.marks, self.unknown, self.count = {}, [], 0

    def note_definitions(self, row, references):
        """Which files a row names: of several rows with the same words, the one that names the comment's file is meant."""
        self.named[row.number] = {id(file) for file in (file_of(reference) for reference in references) if file is not None}

    def file(self, file):
        for block in comment_blocks(file.tokens):
            text, places = joined(block)
            for start, end in quotes(text):
                target = self.target(file, text[start:end])
                if target is None and text[start:end] not in NO_SENTENCES:
                    self.unknown.append((file, block[0].line, text[start:end]))
                elif target is not None:
                    self.mark(file, places, start - 1, end + 1, target)

    def mark(self, file, places, start, end, target):
        self.count += 1
        first = None
        for at, token, skipped in places:
            left, right = max(start - at, 0), min(end - at, len(token.text) - skipped)
            if left < right:
                self.marks.setdefault(id(token), []).append(Mark(left + skipped, right + skipped, target))
                first = first or token
        if hasattr(target, "quoted_at"):
            target.quoted_at.append((file, first.line))

    def target(self, file, quotation):
        """The heading that these words are, or the row that has them, or one whose words they have."""
        parts = fragments(quotation)
        if not parts or quotation in NO_SENTENCES:
            return None
        heading = self.heading(plain(quotation))
        found = [(self.rank(row, file, parts), row.number, row) for row in self.rows if self.has(row, parts)] if not heading else []
        return heading or (min(found)[2] if found else self.wider(plain(quotation)))

    def wider(self, words):
        """The row of which these words have most."""
        found = [(-len(part), row.number, row) for row in self.rows for part in self.firsts[row.number] if within(words, part)]
        return min(found)[2] if found else None

    def heading(self, words):
        """A heading may have two titles of the document, as "dual, join, glb, .." has, or be the beginning of one."""
        for heading in self.headings:
            if words == heading.text or heading.text.startswith(words + ", ") or heading.text.endswith(", " + words) or words.startswith(heading.text + "'s "):
                return heading
        return None

    def has(self, row, parts):
        text = " | ".join(self.texts[row.number])
        return all(within(text, part) for part in parts)

    def rank(self, row, file, parts):
        """Lower is better: the words in the row's first cell, a quotation of just these words, one that begins with them, a row that names the file."""
        first, own = self.texts[row.number][0], self.firsts[row.number]
        in_first = all(part in first for part in parts)
        return (not in_first, parts[0] not in own, not any(part.startswith(parts[0]) for part in own), id(file) not in self.named.get(row.number, ()))


def within(text, part):
    return re.search(rf"(?<!\w){re.escape(part)}(?!\w)", text)


def file_of(reference):
    if reference.kind == "file":
        return reference.target
    return reference.target.home if reference.kind == "definition" and hasattr(reference.target, "home") else None
