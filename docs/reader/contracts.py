"""The functions' signatures and contracts as tokens with roles. The clauses are antt, over the file's `ghost use` lines; the rest is Rattle's own notation."""
import re

from lex import Token, grouped, is_text, significant, tokens
from terms import Bound, mark_words, set_role
from world import types_of

WORDS = {"pub", "fn", "extern", "mut", "enum", "struct", "trait", "ghost", "requires", "ensures", "const", "self", "Self"}
CLAUSE = re.compile(r" +(requires|ensures)( \w+)? \{")
GHOST = re.compile(r" +ghost (\w+): \{")
GENERIC = re.compile(r"(?:fn|enum|struct|trait) \w+<(.*?)>(?:\(| \{)")
FUNCTION_LINE = re.compile(r" +fn \w+")
RESULT, SELF = "result", "self"
PRIMITIVE = {"u8", "u16", "u32", "u64", "usize", "i8", "i64", "bool", "f64"}
# what code has of the toolchain's libraries without a `use` line: these are words there; of the others the contracts speak, as definitions do
LIBRARY = {"Vec", "Copy", "Fn", "FnMut", "FnOnce"}
PRELUDE, SHARED = "Rattle.std.specs.Prelude", ("Option", "Some", "None", "Result", "Ok", "Err")
RATTLE = re.compile(
    r"(?P<space>\s+)|(?P<comment>//.*|#\[.*)|(?P<text>b?\"[^\"]*\")|(?P<number>\d\w*)|(?P<name>\w+)|(?P<punct>::|->|'\w+(?!')|.)"
)


class CodeScope:
    """The names that the clauses of one source may use."""

    def __init__(self, world, source):
        self.path, self.crate = source.path, source.crate
        self.exports, self.aliases, self.operators = {}, {}, {}
        self.scope = {name: world.tools.used(PRELUDE, name) for name in SHARED}
        world.fill(self, [significant(tokens(line)) for line in source.ghost])
        self.constants = {name: line for other in world.sources[source.crate] for name, line in other.constants.items()}
        self.types = {name: self.scope[name] for name in ("Option", "Result")}
        self.types.update(types_of(world.declared, source))
        for module, name in source.uses:
            crate = module.split("::")[0]
            lines = [other.constants[name] for other in world.sources.get(crate, []) if name in other.constants]
            if lines or crate == "std":
                self.constants[name] = lines[0] if lines else f"{module}::{name}"

    def kind(self, name):
        """The type of the code with this name, as the type of a term in a clause."""
        return ([Token("name", name, 0, 0)], TypeNames(self.types)) if name in self.types else None


class TypeNames:
    def __init__(self, types):
        self.scope = types


class Shown:
    """The lines of a function or a declared type, each a list of tokens."""

    def __init__(self, entry, lines):
        self.entry, self.lines = entry, lines


def rattle_tokens(line):
    return [Token(match.lastgroup, match.group(), 0, match.start()) for match in RATTLE.finditer(line)]


class Contracts:
    def __init__(self, resolver):
        self.resolver, self.world = resolver, resolver.world
        self.scopes = {}

    def scope(self, source):
        if source.path not in self.scopes:
            self.scopes[source.path] = CodeScope(self.world, source)
        return self.scopes[source.path]

    def source_of(self, crate, path):
        return next(source for source in self.world.sources[crate] if source.path == path)

    def function(self, entry):
        """A function's lines, with the parameters as names bound nearby, and its type parameters."""
        scope = self.scope(self.source_of(entry.crate, entry.path))
        bound = {} if entry.owner is None else self.bound_by(scope.types.get(entry.owner), scope.kind(entry.owner))
        return Shown(entry, self.function_lines(scope, entry.lines, bound))

    def bound_by(self, owner, kind):
        """What the contract of a method may name besides its parameters: `self`, and of a trait's the values that it asks for."""
        if owner is None or owner.kind != "trait":
            return {SELF: Bound(kind)}
        return {SELF: Bound(), **{name: Bound(None, member) for name, member in owner.members.items()}}

    def trait_of(self, entry):
        """The trait of the repository that has the contract of a method, if one has."""
        return self.scope(self.source_of(entry.crate, entry.path)).types.get(entry.trait)

    def function_lines(self, scope, lines, bound):
        """The same for lines. bound has what the clauses may name besides."""
        generic = type_parameters(scope, lines)
        attributes = attribute_lines(lines)
        found = [self.code_line(scope, line, None, generic, at in attributes) for at, line in enumerate(lines) if not is_clause(line)]
        parameters, result = typed_names(scope, [token for line in found for token in line if token.kind in ("name", "punct")], bound)
        parameters = {**bound, **generic, **parameters}
        return found + [self.clause(scope, line, parameters, result) for line in lines if is_clause(line)]

    def code_line(self, scope, line, member=None, generic=(), is_attribute=False):
        """A line outside the clauses; member is the case or field that it declares."""
        found = [Token("comment", line, 0, 0)] if is_attribute else rattle_tokens(line)
        solid = [token for token in found if token.kind != "space"]
        for place, token in enumerate(solid):
            around = [solid[at].text if 0 <= at < len(solid) else "" for at in (place - 2, place - 1, place + 1)]
            if token.text in generic:
                set_role(token, "local")
            self.code_role(scope, token, around, member)
        for token in found:
            set_role(token, token.kind if token.kind != "name" else "unresolved")
        return found

    def code_role(self, scope, token, around, member):
        path, before, after = around
        types = self.world.declared.get(path, scope.types) if before == "::" else scope.types
        if token.kind != "name":
            return
        if token.text in WORDS or token.text in PRIMITIVE or token.text in LIBRARY or after == "::":
            set_role(token, "key")
        elif before in ("fn", "enum", "struct", "trait") or (token.text == member and before in ("", "pub", "ghost")):
            set_role(token, "def")
        elif after == ":":
            set_role(token, "local")
        elif token.text in types:
            set_role(token, "ref", types[token.text])
        elif token.text in scope.constants:
            set_role(token, "constant", scope.constants[token.text])

    def clause(self, scope, line, parameters, result):
        """requires { .. }, or ensures { .. }, in which `result` is the function's. The clause may have a name before the bracket."""
        found = tokens(line)
        solid = significant(found)
        set_role(solid[0], "key")
        *named, group = [item for item in grouped(solid)[1:] if not is_text(item, ";")]
        for name in named:
            set_role(name, "def")
        mark_words(solid)
        bound = dict(parameters)
        if solid[0].text == "ensures":
            result.made = self.world.tools.built_in(RESULT)
            bound[RESULT] = result
        for token in solid:
            if token.text in scope.constants and token.text not in bound:
                set_role(token, "constant", scope.constants[token.text])
        self.resolver.walk(scope, group.items, bound)
        for token in found:
            set_role(token, token.kind if token.kind != "name" else "unresolved")
        return found

    def declared(self, made):
        """An enum, struct or trait of the code; its name and its members are definitions."""
        entry = made.site
        scope = self.scope(self.source_of(made.home.crate, entry.path))
        if made.kind == "trait":
            return Shown(entry, self.trait_lines(scope, made))
        lines, generic = [], type_parameters(scope, entry.lines)
        for place, line in enumerate(entry.lines):
            member = next((name for name, at in entry.members.items() if at == place), None)
            found = self.fact(scope, line, made) if GHOST.match(line) else self.code_line(scope, line, member, generic)
            for token in found:
                if token.role == "def" and token.target is None and not GHOST.match(line):
                    token.target = made.members[member] if member else made
            lines.append(found)
        return Shown(entry, lines)

    def fact(self, scope, line, made):
        """ghost NAME: { .. }: of a struct, what is true of its fields; of a trait, a value that it asks for."""
        name, bracket, fact = line.partition("{")
        found = self.code_line(scope, name, GHOST.match(line)[1])
        for token in found:
            if token.role == "def":
                token.target = made.members.get(token.text)
        told = tokens(bracket + fact)
        solid = significant(told)
        mark_words(solid)
        bound = {name: Bound(None, member) for name, member in made.members.items()} if made.kind == "struct" else {}
        bound["Self"] = Bound(None, made)
        self.resolver.walk(scope, grouped(solid)[0].items, bound)
        for token in told:
            set_role(token, token.kind if token.kind != "name" else "unresolved")
        return found + told

    def trait_lines(self, scope, made):
        """A trait: its ghost values, and its functions with their contracts, each as it stands; a body has no links."""
        lines, function, is_body = [], [], False
        bound = self.bound_by(made, None)
        for line in made.site.lines:
            starts = FUNCTION_LINE.match(line)
            if function and not (is_clause(line) or starts is None and function[-1].endswith((",", "("))):
                lines += self.function_lines(scope, function, bound)
                function = []
            is_body = is_body or line == "    {"
            if is_body:
                lines.append([Token("text", line, 0, 0)])
                set_role(lines[-1][0], "text")
                is_body = line != "    }"
            elif starts or function:
                function.append(line)
            else:
                found = self.fact(scope, line, made) if GHOST.match(line) else self.code_line(scope, line)
                for token in found:
                    if token.role == "def" and token.target is None:
                        token.target = made
                lines.append(found)
        return lines


def attribute_lines(lines):
    """The places of the lines of attributes, which may take several."""
    found, open_one = set(), False
    for at, line in enumerate(lines):
        open_one = open_one or line.lstrip().startswith("#[")
        if open_one:
            found.add(at)
            open_one = not line.endswith("]")
    return found


def type_parameters(scope, lines):
    """The names of `fn f<A: Trait, ..>(`, or of a type's, with their traits."""
    found = next((GENERIC.search(line)[1] for line in lines if GENERIC.search(line)), "")
    pairs = [part.removeprefix("const ").partition(":") for part in found.split(", ") if part and not part.startswith("'")]
    return {name: Bound(scope.kind(trait.strip())) for name, _, trait in pairs}


def typed_names(scope, found, bound):
    """The parameters with their types, and the result with its. `self` is lent where it stands behind a &."""
    parameters, result = {}, Bound()
    for place, token in enumerate(found):
        after = [name.text for name in found[place + 2 : place + 6]]
        if token.role == "local" and found[place + 1].text == ":":
            kind = scope.kind(next(name for name in after if name not in ("&", "mut") and not name.startswith("'")))
            parameters[token.text] = Bound(kind, None, after[0] == "&")
        elif token.text == SELF and SELF in bound:
            parameters[SELF] = Bound(bound[SELF].kind, None, "&" in [before.text for before in found[max(0, place - 2) : place]])
        elif token.text == "->":
            lent = found[place + 1].text == "&"
            result = Bound(scope.kind(found[place + 1 + lent].text), None, lent)
    return parameters, result


def is_clause(line):
    return CLAUSE.match(line) is not None
