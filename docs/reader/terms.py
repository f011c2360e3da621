"""Names in terms and types: each token of a term gets a role, in the scope of the file and of what is bound around it."""
from kinds import applied, binder, is_operator, record_of, type_of
from lex import Group, Token, is_text, place_of, position, split

WORDS = {
    "use", "mod", "pub", "as", "record", "data", "where", "module", "unfoldable", "abbrev", "axiom", "infix", "infixl", "infixr", "let", "in",
    "unfolding", "elim", "open", "using", "mutual", "do", "→", "λ", "=", ":", "_", "Type", "∀", "↦", "|", "[", "]", "←",
}  # fmt: skip


class Bound:
    """A name bound nearby: its type, where it is known, and for a record's own field what it is. lent: it is a reference, a parameter of the code."""

    def __init__(self, kind=None, made=None, lent=False):
        self.kind, self.made, self.lent = kind, made, lent


def set_role(token, role, target=None):
    if token.role is None:
        token.role, token.target = role, target


def mark_words(found):
    """The words of the language among tokens, unless they stand behind the dot of a qualified name."""
    for before, token in zip([None] + found, found):
        after_dot = before is not None and before.text == "." and before.end == token.at
        if token.text in WORDS and not after_dot:
            set_role(token, "key")


class Terms:
    def __init__(self, world):
        self.world = world
        self.problems = []

    def walk(self, file, items, scope):
        """Roles for all tokens of a term. scope is changed: what is bound on the way holds up to the end of the items. spine is the application so far, of
        whose last part a field may be taken."""
        spine = []
        place = 0
        while place < len(items):
            item = items[place]
            if isinstance(item, Group):
                spine = self.group(file, items, place, scope, spine)
            elif is_text(item, "λ"):
                place, spine = self.abstraction(file, items, place, scope), []
            elif is_text(item, "let"):
                place, spine = self.binding(file, items, place, scope), []
            elif self.projects(items, place):
                place, spine = place + 1, spine[:-1] + [self.projection(file, items[place + 1], spine[-1:], scope)]
            elif is_text(item, "."):
                self.problems.append(f"{file.path}:{item.line}: a dot that takes no field, and binds no name")
            elif self.qualified(file, items, place):
                self.set_qualified(file, items, place)
                place, spine = place + 2, spine + [items[place + 2]]
            else:
                spine = self.token(file, item, scope, spine)
            place += 1

    # ---- names

    def token(self, file, token, scope, spine):
        if token.role is None:
            self.look_up(file, token, scope)
        ends = token.role in ("key", "punct") or (token.role == "ref" and token.text in file.operators) or token.text == "×"
        return [] if ends else spine + [token]

    def look_up(self, file, token, scope):
        if token.kind in ("number", "punct"):
            set_role(token, token.kind)
        elif token.text in scope:
            bound = scope[token.text]
            set_role(token, "ref" if bound.made else "local", bound.made)
            token.type = bound.kind
        elif token.text in file.operators and token.text not in file.scope:
            set_role(token, "ref", file.operators[token.text])
        elif token.text in file.scope:
            set_role(token, "ref", file.scope[token.text])
        else:
            built_in = self.world.tools.built_in(token.text)
            set_role(token, "ref" if built_in else "unresolved", built_in)

    def qualified(self, file, items, place):
        """Whether MODULE.name stands here, without a space."""
        token = items[place]
        return (
            isinstance(token, Token) and token.text in file.aliases and place + 2 < len(items)
            and is_text(items[place + 1], ".") and items[place + 1].at == token.end and items[place + 2].at == token.end + 1
        )  # fmt: skip

    def set_qualified(self, file, items, place):
        module, exports = file.aliases[items[place].text]
        set_role(items[place], "module", self.world.module_target(module))
        set_role(items[place + 1], "punct")
        set_role(items[place + 2], "ref", self.world.exported(file, module, exports, items[place + 2].text))

    def projects(self, items, place):
        """Whether the dot of TERM.field stands here, without a space on either side."""
        return (
            is_text(items[place], ".") and 0 < place < len(items) - 1
            and items[place - 1].end == items[place].at and items[place].end == items[place + 1].at
        )  # fmt: skip

    def atoms(self, file, items):
        """Items in which a qualified name, three tokens, is one: its last token, after the others have their roles. And a field with what it is taken of."""
        found = []
        place = 0
        while place < len(items):
            if self.qualified(file, items, place):
                self.set_qualified(file, items, place)
                place += 2
            elif self.projects(items, place):
                found.pop()
                place += 1
            found.append(items[place])
            place += 1
        return found

    # ---- what binds names

    def bind(self, token, kind, scope):
        if token.kind == "number" or token.text == "_":
            set_role(token, "number" if token.kind == "number" else "key")
            return
        set_role(token, "local")
        scope[token.text] = Bound(kind)

    def group(self, file, items, place, scope, spine):
        group = items[place]
        bound = binder(group)
        if bound:
            names, tree = bound
            set_role(group.items[len(names)], "key")
            self.walk(file, tree, dict(scope))
            for name in names:
                self.bind(name, (tree, file), scope)
            return []
        if place and is_text(items[place - 1], "record") and group.open.text == "{":
            self.literal(file, group, scope)
            return [group]
        self.walk(file, group.items, dict(scope))
        return spine + [group]

    def abstraction(self, file, items, place, scope):
        """λ x y. ..: the place of the dot."""
        set_role(items[place], "key")
        dot = place_of(items, place, ".")
        for item in items[place + 1 : dot]:
            if isinstance(item, Group):
                self.group(file, [item], 0, scope, [])
            else:
                self.bind(item, None, scope)
        return dot

    def binding(self, file, items, place, scope):
        """let x = e in ..: e in the scope so far, x from there on. The place of `in`."""
        end = place_of(items, place, "in")
        set_role(items[place], "key")
        set_role(items[end], "key")
        equals = place_of(items, place, "=")
        colon = position(items[place:equals], ":")
        value = items[equals + 1 : end]
        self.walk(file, value, dict(scope))
        if colon > 0:
            self.walk(file, items[place + colon + 1 : equals], dict(scope))
        self.bind(items[place + 1], self.inferred(file, value, scope), scope)
        return end

    # ---- records

    def literal(self, file, group, scope):
        """record { f = e; .. }: the record that has just these fields."""
        parts = [part for part in split(group.items, ";") if part]
        made = self.record_with(file, {part[0].text for part in parts})
        for part in parts:
            set_role(part[0], "ref" if made else "unresolved", made.members[part[0].text] if made else None)
            set_role(part[1], "key")
            self.walk(file, part[2:], dict(scope))

    def record_with(self, file, names):
        found = [made for made in self.records() if set(made.members) == names]
        near = [made for made in found if made.home is file or made in file.scope.values()]
        choice = near or found
        return choice[0] if len(choice) == 1 else None

    def records(self):
        for file in self.world.specs.values():
            yield from (made for made in file.definitions if made.kind == "record")
        for types in self.world.declared.values():
            yield from (made for made in types.values() if made.kind == "struct")

    def projection(self, file, token, spine, scope):
        """.f behind a term: the field of the term's record, or of a reference what it lends, also of one that is a field. What stands for the whole afterwards is the
        field's token."""
        kind = self.inferred(file, spine, scope)
        built_in = self.world.tools.built_in("." + token.text)
        if self.is_lent(spine, scope):
            set_role(token, "ref" if built_in else "unresolved", built_in)
            token.type = kind
            return token
        record = record_of(kind) or self.only_record(token.text)
        if record is not None and token.text in record.members:
            set_role(token, "ref", record.members[token.text])
        elif built_in:
            set_role(token, "ref", built_in)
            token.type = kind
        set_role(token, "number" if token.kind == "number" else "unresolved")
        return token

    def is_lent(self, spine, scope):
        """Whether a term is a parameter of the code, or its result, that is a reference."""
        return len(spine) == 1 and isinstance(spine[0], Token) and spine[0].text in scope and scope[spine[0].text].lent

    def only_record(self, name):
        found = [made for made in self.records() if name in made.members]
        return found[0] if len(found) == 1 else None

    def inferred(self, file, items, scope):
        """The type of an application, where it can be told."""
        atoms = self.atoms(file, items)
        if not atoms or any(is_operator(atom, file) or is_text(atom, "→", "λ", "×") for atom in atoms):
            return None
        head, *arguments = atoms
        if isinstance(head, Group):
            kind = self.inferred(file, head.items, scope)
        elif head.type or head.role == "local":
            kind = head.type
        else:
            kind = type_of(head.target) if head.role == "ref" else None
        return applied(kind, len(arguments)) if kind else None
