"""The table of sentences: docs/TRACE.md with its references as links."""
import re
from html import escape

from listing import target_id
from markup import link, section, slug, span, table
from trace_md import Heading, Paragraph, quotes

SHORT = 160


def shortened(text, most=SHORT):
    """A long line without its middle."""
    return text if len(text) <= most else f"{text[: most - 60]} .. {text[-50:]}"


def test_id(script, line):
    return f"test.{script.removesuffix('.txt')}.{line}"


def function_id(function):
    return slug(f"fn.{function.crate}.{function.title}")


def plain(text):
    """Text between references."""
    return re.sub(r"`([^`]+)`", r"<code>\1</code>", escape(text, quote=False))


def breakable(text, is_edit):
    """A path may be broken behind a /, and an edit's long name behind a _."""
    out = escape(text, quote=False).replace("/", "/<wbr>")
    return out.replace("_", "_<wbr>") if is_edit else out


def sentence(text):
    """A first cell: the quoted words as quotations."""
    out, at = "", 0
    for start, end in quotes(text):
        out += plain(text[at : start - 1]) + f"<q>{plain(text[start:end])}</q>"
        at = end + 1
    return out + plain(text[at:])


class Sentences:
    def __init__(self, model):
        self.model = model

    # ---- references

    def reference(self, reference, text):
        """A reference as a link; what the page does not show has its path as a tooltip."""
        inner = f"<code>{escape(text.strip('`'), quote=False)}</code>" if text.startswith("`") else breakable(text, reference.kind == "edit")
        made = reference.target
        if reference.kind == "definition":
            return link(target_id(made), inner)
        if reference.kind == "file":
            return link(slug(made.id), inner, title=made.path)
        if reference.kind == "function":
            return link(function_id(made), inner, title=made.path)
        if reference.kind == "test":
            return link(test_id(*made), inner, "t", shortened(self.model.references.tests[made]))
        if reference.kind == "proof":
            path, theorem = made
            return link(target_id(theorem), inner, title=path) if theorem else span("e", inner, path)
        return span("e", inner, made)

    def text(self, text, references):
        """A cell or paragraph. A line of the script that was named last is written :LINE."""
        out, at, script = "", 0, None
        for reference in references:
            shown = text[reference.start : reference.end]
            if reference.kind == "test":
                shown = f":{reference.target[1]}" if script == reference.target[0] else shown
                script = reference.target[0]
            out += plain(text[at : reference.start]) + self.reference(reference, shown)
            at = reference.end
        return out + plain(text[at:])

    # ---- blocks

    def row(self, row):
        """A row's cells: the first has its number, the second where comments quote the sentence."""
        references = self.model.found[id(row)]
        cells = [self.text(cell, found) for cell, found in zip(row.cells, references)]
        cells[0] = f'{link(row.id, str(row.number), "n")} {cells[0] if references[0] else sentence(row.cells[0])}'
        places = ", ".join(self.place(file, line) for file, line in dict.fromkeys(row.quoted_at))
        if places and len(cells) > 1:
            cells[1] += f'<div class="back">quoted in {places}</div>'
        return cells

    def place(self, file, line):
        return link(f"{slug(file.id)}-L{line}", f"{file.crate}/<wbr>{file.name}:{line}")

    def block(self, block):
        if isinstance(block, Heading):
            level = min(block.level + 1, 4)
            return f'<h{level} id="{block.id}">{escape(block.text, quote=False)}</h{level}>'
        if isinstance(block, Paragraph):
            return f"<p>{self.text(block.text, self.model.found[id(block)])}</p>"
        heads = [escape(head.replace("`", ""), quote=False) for head in block.header]
        return table(heads, [self.row(row) for row in block.rows], f"stack trace c{len(heads)}", [row.id for row in block.rows])

    def section(self):
        blocks = [self.block(block) for block in self.model.blocks if not (isinstance(block, Heading) and block.level == 1)]
        return section("sentences", 2, "The sentences of the documents", *blocks, find="rows with these words")
