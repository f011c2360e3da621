"""Source text as HTML: every token as it stands, names with their links. Definitions are <dfn>, names bound nearby <var>, words of the language <b>;
a name that leads nowhere is <s>."""
import re
from html import escape

from markup import link, slug, span

CODE_MARKS = re.compile(r"`([^`\s]+)`")


def target_id(made):
    """The id of what a name leads to."""
    if made.kind == "tool":
        return slug(f"tool.{made.module}.{made.name}")
    return slug(made.id)


class Listing:
    """marks: the quotations of the comments. With ids, definitions are where links lead to; a second copy of a text has none."""

    def __init__(self, page):
        self.page = page

    def token(self, token, ids, file=None):
        text = escape(token.text, quote=False)
        role, made = token.role, token.target
        if role == "comment":
            return self.comment(token, file)
        if role == "def":
            return self.site(made, text, ids)
        if role == "module" and made is None:
            return link("toolchain", text, "m")
        if role in ("ref", "head", "module") and made is not None:
            return self.reference(made, text, role)
        if role in ("local", "unresolved", "key", "constant"):
            return self.other(token, text)
        return text

    def site(self, made, text, ids):
        if made is None or not self.page.shows(made):
            return f"<dfn>{text}</dfn>"
        return f'<dfn id="{target_id(made)}">{text}</dfn>' if ids else link(target_id(made), text)

    def reference(self, made, text, role):
        if made.kind == "elsewhere" or not self.page.shows(made):
            return span("e", text, made.path if made.kind == "elsewhere" else f"{made.home.path}, line {made.site.line}")
        if made.kind == "tool" and not self.page.tools.explains(made):
            return span("e", text, made.module)
        return link(target_id(made), text, "h" if role == "head" else "")

    def other(self, token, text):
        if token.role == "local":
            return f"<var>{text}</var>"
        if token.role == "constant":
            return span("e", text, token.target)
        if token.role == "unresolved":
            return f"<s>{text}</s>"
        return f"<b>{text}</b>" if re.search(r"[a-z]", token.text) else text

    # ---- comments

    def comment(self, token, file):
        """With quotations marked, and names in code marks that the file knows as links."""
        out, at = "", 0
        for mark in self.page.marks(token):
            out += self.comment_text(token.text[at : mark.start], file)
            out += link(mark.target.id, escape(token.text[mark.start : mark.end], quote=False), "q")
            at = mark.end
        return span("c", out + self.comment_text(token.text[at:], file))

    def comment_text(self, text, file):
        out, at = "", 0
        for match in CODE_MARKS.finditer(text):
            made = self.page.known(file, match[1])
            if made is not None:
                out += escape(text[at : match.start()], quote=False) + "`" + link(made, escape(match[1], quote=False)) + "`"
                at = match.end()
        return out + escape(text[at:], quote=False)

    # ---- lines

    def lines(self, lines, first=1, ids=True, file=None, name="", targets=()):
        """Lines of tokens as a listing; name and targets give the ids of the lines that something leads to."""
        out = []
        for number, tokens in enumerate(lines, first):
            identity = f' id="{name}-L{number}"' if number in targets else ""
            out.append(f"<span{identity}>" + "".join(self.token(token, ids, file) for token in tokens) + "\n</span>")
        start = f' style="counter-reset:l {first - 1}"'
        return f"<pre{start}>" + "".join(out) + "</pre>"

    def of_file(self, file, targets):
        """A whole file, line by line; its path, so that a test can compare."""
        out = self.lines(split_lines(file.tokens), 1, True, file, slug(file.id), targets)
        return out.replace("<pre", f'<pre data-path="{file.path}"', 1)

    def part(self, file, first, last):
        """Some lines of a file once more, without ids."""
        return self.lines(split_lines(file.tokens)[first - 1 : last], first, False, file)


def split_lines(tokens):
    lines = [[]]
    for token in tokens:
        if token.kind == "newline":
            lines.append([])
        else:
            lines[-1].append(token)
    return lines[:-1] if not lines[-1] else lines
