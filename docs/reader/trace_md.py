"""docs/TRACE.md as blocks: headings, paragraphs and tables, whose rows have a number each. And the references in its cells, with what they lead to."""
import re

import repo

PATH = "docs/TRACE.md"
ELLIPSIS = re.compile(r"(?:^|(?<=\s))\.\.(?=[\s,;.]|$)")


class Heading:
    def __init__(self, level, text, line):
        self.level, self.text, self.line = level, text, line

    @property
    def id(self):
        return "t-" + re.sub(r"[^a-z0-9]+", "-", self.text.lower()).strip("-")


class Paragraph:
    def __init__(self, text, line):
        self.text, self.line = text, line


class Table:
    def __init__(self, header, rows):
        self.header, self.rows = header, rows


class Row:
    def __init__(self, number, line, cells, header, heading):
        self.number, self.line, self.cells, self.header, self.heading = number, line, cells, header, heading
        self.quoted_at = []

    @property
    def id(self):
        return f"s{self.number}"


def cells_of(line):
    return [cell.strip() for cell in line.strip()[1:-1].split("|")]


def parsed():
    """The blocks of the file, in order."""
    blocks = []
    number = 0
    heading = None
    lines = repo.read(PATH).split("\n")
    place = 0
    while place < len(lines):
        line = lines[place]
        if line.startswith("#"):
            heading = Heading(len(line) - len(line.lstrip("#")), line.lstrip("# "), place + 1)
            blocks.append(heading)
        elif line.startswith("|"):
            end = next((at for at in range(place, len(lines)) if not lines[at].startswith("|")), len(lines))
            table = table_of(lines[place:end], place + 1, number, heading)
            number += len(table.rows)
            blocks.append(table)
            place = end - 1
        elif line:
            end = next((at for at in range(place, len(lines)) if not lines[at] or lines[at].startswith(("|", "#"))), len(lines))
            blocks.append(Paragraph(" ".join(lines[place:end]), place + 1))
            place = end - 1
        place += 1
    return blocks


def table_of(lines, first, number, heading):
    header = cells_of(lines[0])
    rows = [Row(number + at + 1, first + 2 + at, cells_of(line), header, heading) for at, line in enumerate(lines[2:])]
    return Table(header, rows)


def rows_of(blocks):
    return [row for block in blocks if isinstance(block, Table) for row in block.rows]


# ---- quoted words

def quotes(text):
    """(start, end) of each quotation, without its marks. Inside one, marks may stand again, as in "fields "#" (final)"."""
    found, depth, start = [], 0, 0
    for at, char in enumerate(text):
        if char != '"':
            continue
        before = text[at - 1] if at else " "
        after = text[at + 1] if at + 1 < len(text) else " "
        if (before in ' ("' and not after.isspace() and depth < 2) and not (before == '"' and depth):
            depth += 1
            start = at + 1 if depth == 1 else start
        elif depth:
            depth -= 1
            if depth == 0:
                found.append((start, at))
    return found


def plain(text):
    """Quoted words so that they can be compared: without code marks, one space between words."""
    return " ".join(text.replace("`", "").split())


def fragments(text):
    """The parts between '..', which stands for words left out."""
    return [part.strip(" ,;:.") for part in ELLIPSIS.split(plain(text)) if part.strip(" ,;:.")]


def quoted(text):
    return [text[start:end] for start, end in quotes(text)]
