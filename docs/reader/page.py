"""The whole page: its parts in order, with the table of contents, the style and the script in it, so that it needs nothing else."""
from html import escape
from pathlib import Path

import definitions
import lists
import top
from listing import Listing
from markup import link, slug
from model import Model
from sentences import Sentences
from trace_md import Heading

HERE = Path(__file__).parent
TITLE = "Ferigulan: the definitions, with documents 01 and 02 in hand"


def contents(model):
    """The table of contents: the parts, the definition files in reading order, the sections of the table of sentences."""
    files = "".join(
        f"<li>{link(slug(model.world.specs[key].id), '/'.join(key))}</li>" for entry in model.order for key in entry.files
    )
    headings = "".join(
        f"<li>{link(block.id, escape(block.text, quote=False))}</li>" for block in model.blocks if isinstance(block, Heading) and block.level == 2
    )
    further = "".join(f"<li>{link(slug(file.id), f'{file.crate}/{file.name}')}</li>" for file in model.further)
    parts = [
        ("demand3", "Demand 3", ""), ("twelve", "The twelve cases", ""), ("notation", "How a definition is read", ""),
        ("definitions", "The definitions, in reading order", files), ("sentences", "The sentences of the documents", headings),
        ("contracts", "Functions and contracts", ""), ("theorems", "Theorems", ""), ("tests", "Lines of the tests", ""),
        ("toolchain", "Names of the toolchain", ""), ("index", "Index of names", ""), ("further", "Further files of specs/", further),
    ]  # fmt: skip
    return "<nav><ol>" + "".join(f"<li>{link(key, text)}{f'<ol>{inner}</ol>' if inner else ''}</li>" for key, text, inner in parts) + "</ol></nav>"


def page(model: Model):
    listing = Listing(model)
    parts = [
        top.demand3(model, listing), top.twelve(model, listing), top.notation(),
        definitions.definitions(model, listing), Sentences(model).section(), lists.contracts(model, listing),
        lists.theorems(model, listing), lists.tests(model), lists.toolchain(model), lists.index(model),
        definitions.further(model, listing),
    ]  # fmt: skip
    style, script = (HERE / "style.css").read_text(encoding="utf-8"), (HERE / "script.js").read_text(encoding="utf-8")
    header = f"<header><h1>{TITLE}</h1>{top.intro()}</header>"
    return f"""<!DOCTYPE html>
<html lang="en"><head><meta charset="utf-8"><meta name="viewport" content="width=device-width, initial-scale=1"><title>{TITLE}</title>
<style>
{style}</style></head>
<body><div class="page">{header}
{contents(model)}
<main>
{chr(10).join(parts)}
</main></div>
<script>
{script}</script></body></html>
"""
