"""Small pieces of HTML."""
import re
from html import escape

UNSAFE = re.compile(r"[^A-Za-z0-9._-]")


def slug(text):
    """A text as an id: what a link could not name as it stands is written by its number."""
    return UNSAFE.sub(lambda match: f"~{ord(match.group()):x}", text)


def link(target, inner, kind="", title=""):
    named = f' class="{kind}"' if kind else ""
    told = f' title="{escape(title)}"' if title else ""
    return f'<a href="#{target}"{named}{told}>{inner}</a>'


def span(kind, inner, title=""):
    told = f' title="{escape(title)}"' if title else ""
    return f'<span class="{kind}"{told}>{inner}</span>'


def tag(name, inner, **attributes):
    told = "".join(f' {key.rstrip("_").replace("_", "-")}="{escape(str(value))}"' for key, value in attributes.items() if value)
    return f"<{name}{told}>{inner}</{name}>"


def section(identity, level, title, *inner, find=""):
    """find: what a box above the section's lists looks for."""
    asked = f' data-find="{find}"' if find else ""
    return f'<section id="{identity}"{asked}><h{level}>{title}</h{level}>\n' + "\n".join(inner) + "\n</section>"


def table(heads, rows, kind="", ids=()):
    """heads and cells are HTML; each cell has its column's head beside it, for narrow screens."""
    plain = [re.sub(r"<[^>]*>", "", head) for head in heads]
    head = "<thead><tr>" + "".join(f"<th>{text}</th>" for text in heads) + "</tr></thead>"
    body = []
    for at, cells in enumerate(rows):
        inner = "".join(f'<td data-head="{text}">{cell}</td>' for text, cell in zip(plain, cells))
        body.append(tag("tr", inner, id=ids[at]) if ids else f"<tr>{inner}</tr>")
    return f'<div class="wide"><table class="{kind}">{head}<tbody>\n' + "\n".join(body) + "\n</tbody></table></div>"


def marked(text):
    """Markdown's `code` in a line of plain text."""
    return re.sub(r"`([^`]+)`", r"<code>\1</code>", escape(text, quote=False))
