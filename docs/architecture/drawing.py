"""The drawing: a box for each layer, with a line of crates for each of its headings, and an arrow to each layer that it stands on. Boxes of one rank stand in
one row, the lowest rank at the bottom. An arrow that passes a row goes through a narrow place kept free there."""

from dataclasses import dataclass, field
from html import escape

from repository import has_code

WIDTH = 800  # at least
EDGE = 4  # around the whole
LETTER = 7.3  # the width of a letter of a crate's name, monospace of size 12
TITLE_LETTER = 8.7  # the same for a title, at most
LINE = 18
INSET = 12  # from a box's side to its text
BETWEEN = 26  # boxes of a row
ROWS_APART = 34
WIDEST = 560  # a box that is alone in its row
PASSAGE = 16  # a place for an arrow that passes a row
ARROW_INSET = 24  # how near to a box's corner an arrow may end


@dataclass
class Box:
    title: str  # none for the place where an arrow passes a row
    lines: list  # of lists of (column, crate)
    width: float
    left: float = 0
    top: float = 0
    row_end: float = 0  # the lower end of its row
    arrows: list = field(default_factory=list)  # the boxes that it points to

    @property
    def height(self):
        return 2 * INSET + LINE * (len(self.lines) + 1) - 6 if self.title else 0


def lines_of(crates, letters):
    """The names of the crates, each with the column where it begins; two spaces stand between them. A heading begins a line, and so does a name for which a line of
    so many letters has no room."""
    lines, column, heading = [], 0, None
    for crate in crates:
        if crate.heading != heading or column + len(crate.name) > letters:
            lines.append([])
            column, heading = 0, crate.heading
        lines[-1].append((column, crate.name))
        column += len(crate.name) + 2
    return lines


def box_of(layer, widest):
    title = f"{layer.number}  {layer.name}"
    lines = lines_of(layer.crates, (widest - 2 * INSET) / LETTER)
    longest = max(column + len(name) for line in lines for column, name in line)
    return Box(title, lines, max(len(title) * TITLE_LETTER, longest * LETTER) + 2 * INSET)


def rows_of(layers):
    """The boxes by rank, and behind them the places where arrows over more than one rank pass."""
    boxes, rows = {}, []
    for rank in range(1 + max(layer.rank for layer in layers)):
        row = [layer for layer in layers if layer.rank == rank]
        passing = sum(layers[number - 1].rank < rank < layer.rank for layer in layers for number in layer.below)
        room = WIDTH - 2 * EDGE - passing * (PASSAGE + BETWEEN) - BETWEEN * (len(row) - 1)
        rows.append([boxes.setdefault(layer.number, box_of(layer, min(WIDEST, room / len(row)))) for layer in row])
    for layer in layers:
        for number in layer.below:
            join(rows, boxes[layer.number], layer.rank, boxes[number], layers[number - 1].rank)
    return rows


def join(rows, upper, rank, lower, low):
    for between in range(rank - 1, low, -1):
        passage = Box("", [], PASSAGE)
        rows[between].append(passage)
        upper.arrows.append(passage)
        upper = passage
    upper.arrows.append(lower)


def row_width(row):
    return sum(box.width for box in row) + BETWEEN * (len(row) - 1)


def place(rows):
    """Gives each box its place, and tells the size of the whole."""
    width = max(WIDTH, 2 * EDGE + max(row_width(row) for row in rows))
    top = EDGE
    for row in reversed(rows):
        left = (width - row_width(row)) / 2
        end = top + max(box.height for box in row)
        for box in row:
            box.left, box.top, box.row_end = left, top, end
            left += box.width + BETWEEN
        top = end + ROWS_APART
    return width, top - ROWS_APART + EDGE


def ends(upper, lower):
    """Where an arrow leaves and arrives: straight down where the boxes stand above each other, else as near as they come."""
    insets = [ARROW_INSET if box.title else PASSAGE / 2 for box in (upper, lower)]
    spans = [(box.left + inset, box.left + box.width - inset) for box, inset in zip((upper, lower), insets)]
    left, right = max(spans[0][0], spans[1][0]), min(spans[0][1], spans[1][1])
    if left <= right:
        return (left + right) / 2, (left + right) / 2
    return (spans[0][1], spans[1][0]) if spans[0][1] < spans[1][0] else (spans[0][0], spans[1][1])


def arrow(upper, lower):
    """Down to the end of the row, so that it crosses no box beside it, and on to the next."""
    x, y = ends(upper, lower)
    head = ' marker-end="url(#head)"' if lower.title else ""
    return f'<polyline points="{x:.0f},{upper.top + upper.height:.0f} {x:.0f},{upper.row_end:.0f} {y:.0f},{lower.top - (2 if lower.title else 0):.0f}"{head}/>'


def drawn(box):
    yield f'<rect x="{box.left:.0f}" y="{box.top:.0f}" width="{box.width:.0f}" height="{box.height:.0f}" rx="4"/>'
    y = box.top + INSET + LINE - 6
    yield f'<text class="title" x="{box.left + INSET:.0f}" y="{y:.0f}" xml:space="preserve">{escape(box.title)}</text>'
    for number, line in enumerate(box.lines, 1):
        for column, name in line:
            kind = "crate" if has_code(name) else "crate laws"
            yield f'<text class="{kind}" x="{box.left + INSET + column * LETTER:.0f}" y="{y + number * LINE:.0f}">{escape(name)}</text>'


STYLE = """<style>
rect { fill: #f6f6f6; stroke: #000; }
polyline { fill: none; stroke: #000; stroke-width: 1.4; }
text { fill: #000; }
.title { font-family: sans-serif; font-size: 14px; font-weight: bold; }
.crate { font-family: monospace; font-size: 12px; }
.laws { font-style: italic; }
</style>
<defs><marker id="head" viewBox="0 0 10 10" refX="9" refY="5" markerWidth="8" markerHeight="8" orient="auto"><path d="M0 0 L10 5 L0 10 z"/></marker></defs>"""


def svg(layers):
    rows = rows_of(layers)
    width, height = place(rows)
    boxes = [box for row in reversed(rows) for box in row]
    parts = [f'<svg xmlns="http://www.w3.org/2000/svg" width="{width:.0f}" height="{height:.0f}" viewBox="0 0 {width:.0f} {height:.0f}">']
    parts.append("<!-- made by docs/architecture.sh from crates.txt -->")
    parts.append("<title>The layers of the repository, their crates, and on which layers each stands</title>")
    parts += [STYLE, f'<path d="M0 0 H{width:.0f} V{height:.0f} H0 z" fill="#fff"/>']
    parts += [text for box in boxes if box.title for text in drawn(box)]
    parts += [arrow(box, low) for box in boxes for low in box.arrows]
    return "\n".join(parts) + "\n</svg>\n"
