"""All files of definitions with their scopes: what each `use` line brings in, from which file, enum or module of the toolchain."""
import re

import repo
import rt
from lex import Group, Token, grouped, is_text
from names import Anywhere, CodeHome, Definition, File, parts_of

MODULE = re.compile(r"Rattle\.(?!std\.)(\w+)\.(specs|proofs)\.(.+)")
VARIANTS = "TheVariants"
FIELD_TYPE = re.compile(r"\w+: (\w+),?$")


class World:
    """All files, with their scopes filled in."""

    def __init__(self, tools):
        self.tools = tools
        self.sources = rt.sources()
        self.declared = declared_of(self.sources)
        self.specs = {(crate, file): File(crate, "specs", file) for crate, file in repo.spec_files()}
        self.proofs = {}
        self.unknown = []
        for file in self.specs.values():
            self.fill(file, [item.tokens for item in file.items if item.kind == "use"])

    def proof(self, crate, name):
        """A file of proofs, read when it is asked for."""
        if (crate, name) not in self.proofs:
            file = File(crate, "proofs", name)
            self.proofs[crate, name] = file
            self.fill(file, [item.tokens for item in file.items if item.kind == "use"])
        return self.proofs[crate, name]

    def fill(self, file, uses):
        file.scope.update(file.exports)
        for words in uses:
            self.bring(file, words)
        for name, made in file.scope.items():
            for part in parts_of(name):
                file.operators[part] = made

    def bring(self, file, words):
        """One `use` line: into the scope, and onto its tokens what they lead to."""
        tree = grouped(words[1:])
        place = next((at for at, item in enumerate(tree) if isinstance(item, Group) or is_text(item, "as")), len(tree))
        module = "".join(token.text for token in tree[:place]).rstrip(".")
        exports = self.exports(module)
        target = self.module_target(module)
        for token in [words[0]] + [item for item in tree[:place] if isinstance(item, Token)]:
            token.role, token.target = ("module", target) if token.kind == "name" and token is not words[0] else ("key", None)
        if place < len(tree) and isinstance(tree[place], Group):
            self.bring_names(file, module, exports, tree[place].items)
        elif place < len(tree):
            tree[place].role, tree[place + 1].role, tree[place + 1].target = "key", "module", target
            file.aliases[tree[place + 1].text] = (module, exports)

    def bring_names(self, file, module, exports, items):
        place = 0
        while place < len(items):
            token = items[place]
            if not is_text(token, ","):
                made = self.exported(file, module, exports, token.text)
                token.role, token.target = "ref", made
                if place + 2 < len(items) and is_text(items[place + 1], "as"):
                    items[place + 1].role = "key"
                    token, place = items[place + 2], place + 2
                    token.role, token.target = "ref", made
                file.scope[token.text] = made
            place += 1

    def exported(self, file, module, exports, name):
        if exports is None:
            return self.tools.used(module, name)
        if name not in exports:
            self.unknown.append(f"{file.path}: {module} has no {name}")
        return exports.get(name)

    def exports(self, module):
        """The names of a module of the repository; None where it is the toolchain's."""
        match = MODULE.fullmatch(module)
        if not match:
            return None
        crate, folder, rest = match.groups()
        words = rest.split(".")
        if words[0] == "declared":
            return self.declared_exports(crate, words)
        if folder == "proofs":
            return Anywhere(f"crates/{crate}/proofs/{'/'.join(words)}.antt")
        return self.specs[crate, words[0]].exports if (crate, words[0]) in self.specs else {}

    def declared_exports(self, crate, words):
        variants = words[-1] == VARIANTS
        name = words[-2] if variants else words[-1]
        made = self.declared.get(crate, {}).get(name)
        if made is None:
            return {}
        return made.members if variants else {name: made}

    def module_target(self, module):
        match = MODULE.fullmatch(module)
        if not match or match[2] == "proofs":
            return None
        crate, words = match[1], match[3].split(".")
        if words[0] == "declared":
            return self.declared.get(crate, {}).get(words[-2] if words[-1] == VARIANTS else words[-1])
        return self.specs.get((crate, words[0]))


def declared_of(sources):
    """crate: name: the definition of each enum, struct and trait of the code."""
    found = {}
    for crate, files in sources.items():
        found[crate] = {}
        for source in files:
            for entry in source.declared:
                home = CodeHome(crate, source.path)
                owner = Definition(entry.kind, entry.name, home, entry)
                for name in entry.members:
                    owner.members[name] = Definition("case" if entry.kind == "enum" else "field", name, home, entry, None, owner)
                found[crate][entry.name] = owner
    for source in (source for files in sources.values() for source in files):
        type_fields(found, source)
    return found


def types_of(declared, source):
    """The types of the code that a source may name without a path: those of its crate, and those that it imports."""
    imported = {name: declared.get(module.split("::")[0], {}).get(name) for module, name in source.uses}
    return {**declared[source.crate], **{name: made for name, made in imported.items() if made}}


def type_fields(declared, source):
    """The fields of structs whose type is one of the code get that type, so that a field may be taken of them."""
    types = types_of(declared, source)
    for entry in source.declared:
        for field in declared[source.crate][entry.name].members.values():
            named = FIELD_TYPE.search(entry.lines[entry.members[field.name]]) if field.kind == "field" else None
            if named and named[1] in types:
                field.type, field.home.scope = [Token("name", named[1], 0, 0)], types
