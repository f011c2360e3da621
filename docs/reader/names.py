"""What a name can be: a definition of a file of specs or proofs, an enum of the code with its cases, a name of the toolchain."""
import repo
from blocks import MARKS, parsed
from lex import grouped, is_text, position

PLACE = "◌"  # the place of an argument, in an operator's name


class Definition:
    """kind: function, record, data, constructor, field, enum, case, struct, trait. type is its tree (None where there is none to look at), body the right side
    of a definition without arguments, members the fields or constructors."""

    def __init__(self, kind, name, home, site=None, tree=None, owner=None):
        self.kind, self.name, self.home, self.site, self.type, self.owner = kind, name, home, site, tree, owner
        self.body, self.members = None, {}

    @property
    def id(self):
        inner = f"{self.owner.name}." if self.owner else ""
        return f"{self.home.id}.{inner}{self.name}"

    @property
    def builds(self):
        return self.kind in ("constructor", "case")


class Tool:
    """A name of the toolchain's libraries, with the module that it is used from."""

    kind = "tool"
    owner = None

    def __init__(self, module, name, builds):
        self.module, self.name, self.builds = module, name, builds


class File:
    """An antt file. exports: its own names; scope: those and what its `use` lines bring in; operators: the parts of names with places for arguments."""

    kind = "file"

    def __init__(self, crate, folder, name, text=None):
        self.crate, self.folder, self.name = crate, folder, name
        self.path = f"crates/{crate}/{folder}/{name}.antt"
        self.id = f"{crate}.{name}" if folder == "specs" else f"{crate}.proofs.{name.replace('/', '.')}"
        self.text = repo.read(self.path) if text is None else text
        self.tokens, self.items = parsed(self.text)
        self.exports, self.scope, self.aliases, self.operators = {}, {}, {}, {}
        self.definitions = []
        declare(self, self.items)

    def add(self, definition, within=True):
        self.definitions.append(definition)
        if within:
            self.exports[definition.name] = definition


class CodeHome:
    """Where an enum or struct of the code stands."""

    def __init__(self, crate, path):
        self.crate, self.path, self.id = crate, path, f"{crate}.src"


def plain(found):
    return [token for token in found if token.text not in MARKS]


def declare(file, items):
    for item in items:
        words = plain(item.tokens)
        if item.kind == "signature":
            file.add(Definition("function", words[0].text, file, words[0], signature_type(words)))
        elif item.kind in ("record", "data"):
            declare_type(file, item, words)
        elif item.kind == "clause":
            note_body(file, item)
        else:
            declare(file, item.body)


def signature_type(words):
    tree = grouped(words)
    return tree[position(tree, ":") + 1 :]


def declare_type(file, item, words):
    tree = grouped(words[1:])
    owner = Definition(item.kind, words[1].text, file, words[1], tree[1 : position(tree, ":")])
    file.add(owner)
    for member in item.body:
        found = plain(member.tokens)
        colon = [token.text for token in found].index(":")
        kind = "field" if item.kind == "record" else "constructor"
        for token in found[:colon]:
            made = Definition(kind, token.text, file, token, grouped(found[colon + 1 :]), owner)
            owner.members[token.text] = made
            file.add(made, within=kind == "constructor")


def note_body(file, item):
    """A clause without arguments is what the name stands for: needed where a type has a name. Of proofs the statements alone are read."""
    if file.folder == "specs" and len(item.tokens) > 2 and is_text(item.tokens[1], "="):
        made = file.exports.get(item.tokens[0].text)
        if made and made.body is None:
            made.body = grouped(item.tokens[2:])


class Elsewhere:
    """A name of a file of proofs, which the page does not show."""

    kind, owner, builds, type, body, members = "elsewhere", None, False, None, None, {}

    def __init__(self, path, name):
        self.path, self.name = path, name


class Anywhere(dict):
    """The exports of a file that is not read: any name that is asked for."""

    def __init__(self, path):
        super().__init__()
        self.path = path

    def __contains__(self, name):
        return True

    def get(self, name, default=None):
        return Elsewhere(self.path, name)


def parts_of(name):
    """Of a name with places for arguments what stands between them."""
    return [part for part in name.split(PLACE) if part] if PLACE in name else []
