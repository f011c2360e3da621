"""The left sides of clauses: the name that is defined, and patterns, which bind names of the types that the signature has."""
from kinds import arguments, element, is_operator, type_of
from lex import Group, Token, is_text
from terms import Terms, set_role

# the toolchain's constructors around one value: the types that have them, and where the value's type stands behind such a type's name
OF_ONE = {"Some": (("Option",), 0), "Ok": (("Result",), 0), "Err": (("Result",), 1)}


class Patterns(Terms):
    def left(self, file, items, current, scope):
        taken, _ = arguments((current.type, file))
        atoms = self.atoms(file, items)
        heads = [atom for atom in atoms if isinstance(atom, Token) and (atom.text == current.name or file.operators.get(atom.text) is current)]
        for head in heads:
            set_role(head, "head", current)
        if not heads:
            self.problems.append(f"{file.path}:{items[0].line}: a clause that does not define {current.name}")
        for place, atom in enumerate(atom for atom in atoms if atom not in heads):
            self.pattern(file, [atom], taken[place] if place < len(taken) else None, scope)

    def pattern(self, file, items, kind, scope):
        """Binds the names of a pattern of a type."""
        atoms = self.atoms(file, items)
        if len(atoms) == 1 and isinstance(atoms[0], Group):
            self.pattern(file, atoms[0].items, kind, scope)
            return
        operators = [place for place, atom in enumerate(atoms) if is_operator(atom, file)]
        lists = [place for place in operators if is_text(atoms[place], "∷")]
        if operators:
            self.infix_pattern(file, atoms, (lists or operators)[0], kind, scope)
        elif len(atoms) == 1 and not self.builder(file, atoms[0]):
            self.bind(atoms[0], kind, scope)
        else:
            self.prefix_pattern(file, atoms, kind, scope)

    def builder(self, file, atom):
        """The constructor that a token is, in a pattern: any other name is bound."""
        made = atom.target if atom.role == "ref" else file.scope.get(atom.text)
        return made if made is not None and made.builds else None

    def infix_pattern(self, file, atoms, place, kind, scope):
        made = file.operators[atoms[place].text]
        set_role(atoms[place], "ref", made)
        if atoms[place].text == "∷":
            taken = [element(kind), kind]
        else:
            taken = self.taken_by(made) + [None, None]
        self.pattern(file, atoms[:place], taken[0], scope)
        self.pattern(file, atoms[place + 1 :], taken[1], scope)

    def prefix_pattern(self, file, atoms, kind, scope):
        made = self.builder(file, atoms[0])
        if made is None:
            self.problems.append(f"{file.path}:{atoms[0].line}: {atoms[0].text} is no constructor")
            return
        set_role(atoms[0], "ref", made)
        taken = [element(kind, *OF_ONE[made.name])] if made.kind == "tool" and made.name in OF_ONE else self.taken_by(made)
        for at, atom in enumerate(atoms[1:]):
            self.pattern(file, [atom], taken[at] if at < len(taken) else None, scope)

    def taken_by(self, made):
        """The types of a constructor's arguments."""
        kind = type_of(made)
        return arguments(kind)[0] if kind else []
