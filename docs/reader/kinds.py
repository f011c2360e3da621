"""As much of types as is needed to say of which record a field is: the type of a name after some arguments, up to the names of types.

A type is a pair of a tree and the file whose names it is written in."""
from lex import Group, Token, position, split


def binder(item):
    """The names and the type of (x y : A) or {x : A}; None where the group is no binder."""
    if not isinstance(item, Group):
        return None
    colon = position(item.items, ":")
    names = item.items[:colon]
    if colon < 1 or not all(isinstance(name, Token) and name.kind == "name" for name in names):
        return None
    return names, item.items[colon + 1 :]


def explicit(segment):
    """The types of the arguments that a part before an arrow takes: of binders one for each name, none for those in braces."""
    if not all(binder(item) for item in segment):
        return [segment]
    taken = []
    for item in segment:
        names, tree = binder(item)
        if item.open.text == "(":
            taken += [tree] * len(names)
    return taken


def named(kind):
    """What a type's first name is, and what stands behind it."""
    tree, file = kind
    while len(tree) == 1 and isinstance(tree[0], Group):
        tree = tree[0].items
    if tree and isinstance(tree[0], Token):
        return file.scope.get(tree[0].text), tree[1:]
    return None, []


def expanded(kind):
    """A type that has a name of its own, as what it stands for."""
    made, rest = named(kind)
    if made is not None and made.kind == "function" and made.body is not None and not rest:
        return made.body, made.home
    return None


def arguments(kind):
    """The types of the explicit arguments, and the type of the result."""
    tree, file = kind
    while len(tree) == 1 and isinstance(tree[0], Group) and not binder(tree[0]):
        tree = tree[0].items
    parts = split(tree, "→")
    taken = [(argument, file) for part in parts[:-1] for argument in explicit(part)]
    result = (parts[-1], file)
    further = expanded(result)
    if further is None:
        return taken, result
    more, last = arguments(further)
    return taken + more, last


def applied(kind, count):
    """The type after so many arguments; None where it takes fewer, or some are left."""
    taken, result = arguments(kind)
    return result if len(taken) == count else None


def type_of(made):
    """The type that a definition's name has; None where it is not looked at."""
    if made is None or made.kind not in ("function", "constructor", "field") or made.type is None:
        return None
    return made.type, made.home


def record_of(kind):
    """The record, struct of the code or trait that a type is."""
    if kind is None:
        return None
    taken, result = arguments(kind)
    made, _ = named(result)
    return made if not taken and made is not None and made.kind in ("record", "struct", "trait") else None


def element(kind, of=("List",), place=0):
    """Of List A, the type A; of a type of another name, the type at that place behind it."""
    if kind is None:
        return None
    made, rest = named(arguments(kind)[1])
    return (rest[place : place + 1], kind[1]) if made is not None and made.name in of and len(rest) > place else None


def is_operator(item, file):
    return isinstance(item, Token) and item.text in file.operators
