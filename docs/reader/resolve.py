"""Every name token of a file: a definition, a link to one, a name bound nearby, a word of the language, a number, or a name of the toolchain."""
from lex import Token, grouped, position
from patterns import Patterns
from terms import Bound, mark_words, set_role


class Resolver(Patterns):
    def file(self, file):
        """A file of definitions whole, of a file of proofs the statements."""
        try:
            self.block(file, file.items, {})
        except ValueError as error:
            self.problems.append(f"{file.path}: {error}")
        for token in file.tokens:
            if token.kind in ("punct", "space", "newline", "comment"):
                set_role(token, token.kind)

    def block(self, file, items, scope):
        """The declarations of a block. scope has the parameters of the modules around it."""
        current = None
        for item in items:
            mark_words(item.tokens)
            if item.kind == "signature":
                current = self.signature(file, item, scope)
            elif item.kind in ("record", "data"):
                self.type_block(file, item, dict(scope))
            elif item.kind in ("module", "mutual"):
                inner = dict(scope)
                self.walk(file, grouped(item.tokens), inner)
                self.block(file, item.body, inner)
            elif item.kind == "clause" and file.folder == "specs":
                self.clause(file, item, current, dict(scope))
            elif item.kind != "use" and file.folder == "specs":
                self.walk(file, grouped(item.tokens), dict(scope))

    def signature(self, file, item, scope):
        tree = grouped(item.tokens)
        colon = position(tree, ":")
        names = [token for token in tree[:colon] if isinstance(token, Token) and token.role is None]
        for name in names:
            set_role(name, "def", file.exports.get(name.text))
        self.walk(file, tree[colon + 1 :], dict(scope))
        return file.exports.get(names[0].text) if names else None

    def type_block(self, file, item, scope):
        """A record or data type: its parameters hold in its members, and a record's field in the fields below it."""
        tree = grouped(item.tokens)
        name = next(token for token in tree if isinstance(token, Token) and token.role is None)
        owner = file.exports[name.text]
        set_role(name, "def", owner)
        self.walk(file, tree[tree.index(name) + 1 :], scope)
        for member in item.body:
            mark_words(member.tokens)
            found = grouped(member.tokens)
            colon = position(found, ":")
            self.walk(file, found[colon + 1 :], dict(scope))
            for token in [token for token in found[:colon] if token.role is None]:
                set_role(token, "def", owner.members[token.text])
                if owner.kind == "record":
                    scope[token.text] = Bound((owner.members[token.text].type, file), owner.members[token.text])

    def clause(self, file, item, current, scope):
        tree = grouped(item.tokens)
        equals = position(tree, "=")
        if current is None or equals < 0:
            raise ValueError(f"line {item.tokens[0].line}: a clause without a signature, or no clause at all")
        self.left(file, tree[:equals], current, scope)
        self.walk(file, tree[equals + 1 :], scope)
