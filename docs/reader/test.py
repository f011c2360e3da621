"""The tests of the reading page. The pieces are tried on small texts, and the finished page is read back."""
import re
from collections import Counter
from urllib.parse import unquote

import document
import repo
from contracts import rattle_tokens
from lex import NUMBER, TOKEN
from listing import target_id
from names import File
from reading import Reading
from tools import LANGUAGE
from trace_md import Heading, fragments, quoted

SIGNS = set("→ λ = : _ | ∣ [ ]".split())
SMALL = """-- a small file
use mathlib.Core.List.{List, [], ◌∷◌}
use Rattle.std.specs.Prelude.{ℕ, max, ◌+◌, Option, Some, None}

pub record Pair : Type 0 where
  pub left : ℕ
  pub right : List ℕ

pub record Other : Type 0 where
  pub left : ℕ

abbrev pub Op : Type 0
Op = ℕ → Pair

abbrev pub total : ℕ → ℕ
total max = max + max

abbrev pub lefts : Op → List Other → List ℕ
lefts f [] = (f 0).right
lefts f (x ∷ xs) = let total = x in total.left ∷ lefts (λ max. record { left = max; right = [] }) xs

abbrev pub sum : Op → Other → Pair → ℕ
sum f left right = max left.left right.left + (f right.left).left

abbrev pub lone : Option Other → ℕ
lone (Some left) = left.left
lone None = 0
"""
# line, text, which of them in the line, role, target
EXPECTED = [
    (13, "ℕ", 0, "ref", "ℕ"),
    (16, "total", 0, "head", "small.Small.total"),
    (16, "max", 0, "local", None),
    (16, "max", 2, "local", None),
    (16, "+", 0, "ref", "◌+◌"),
    (19, "right", 0, "ref", "small.Small.Pair.right"),
    (20, "∷", 0, "ref", "◌∷◌"),
    (20, "total", 0, "local", None),
    (20, "total", 1, "local", None),
    (20, "left", 0, "ref", "small.Small.Other.left"),
    (20, "lefts", 1, "ref", "small.Small.lefts"),
    (20, "left", 1, "ref", "small.Small.Pair.left"),
    (20, "max", 1, "local", None),
    (23, "left", 1, "local", None),
    (23, "left", 2, "ref", "small.Small.Other.left"),
    (23, "right", 1, "local", None),
    (23, "left", 3, "ref", "small.Small.Pair.left"),
    (23, "left", 5, "ref", "small.Small.Pair.left"),
    (26, "Some", 0, "ref", "Some"),
    (26, "left", 1, "local", None),
    (26, "left", 2, "ref", "small.Small.Other.left"),
    (27, "None", 0, "ref", "None"),
]


class Failures:
    def __init__(self):
        self.found, self.count = [], 0

    def check(self, holds, text):
        self.count += 1
        if not holds:
            self.found.append(text)

    def none(self, problems, text=""):
        self.count += 1
        self.found += [f"{text}{problem}" for problem in problems]


# ---- the pieces

def roles(model):
    """line, text: role and target, of the names of the small file."""
    file = File("small", "specs", "Small", SMALL)
    model.world.specs["small", "Small"] = file
    model.world.fill(file, [item.tokens for item in file.items if item.kind == "use"])
    model.resolver.file(file)
    del model.world.specs["small", "Small"]
    return file


def pieces(model, failures):
    file = roles(model)
    failures.check("".join(token.text for token in file.tokens) == SMALL, "the tokens of a text do not join to it")
    for line, text, nth, role, target in EXPECTED:
        token = [token for token in file.tokens if token.line == line and token.text == text][nth]
        told = getattr(token.target, "id", getattr(token.target, "name", None))
        failures.check((token.role, told) == (role, target), f"{text} in line {line} of the small file is {token.role} {told}, not {role} {target}")
    failures.check(quoted('x: "fields "#" (final) and "[]"", y "2"') == ['fields "#" (final) and "[]"', "2"], "quotations in quotations")
    failures.check(fragments("a 0..7 .. else `b`.") == ["a 0..7", "else b"], "the parts of a quotation")
    failures.check(document.uncovered("Bot wins, Top loses. So it is.", ["Bot wins .. loses"]) == ["So it is"], "words that no quotation has")
    failures.check(document.uncovered("depth 32 and 33", ["2"]) == ["depth 32 and 33"], "a number within a number is no quotation")
    failures.check([token.text for token in rattle_tokens("a: &[u64]) -> b::C")][-3:] == ["b", "::", "C"], "tokens of the code")


# ---- the page

def structure(page, failures):
    failures.none(page.problems)
    failures.none([f"id {name} stands twice" for name, count in Counter(page.ids).items() if count > 1])
    known = set(page.ids)
    failures.none(sorted({f"{link} leads nowhere" for link in page.links if link.startswith("#") and unquote(link[1:]) not in known}))
    failures.none(page.outside, "outside resource: ")


def style(text, failures):
    failures.none(re.findall(r"url\(|@import|https?://\S+", text), "outside resource: ")


def listings(model, page, failures):
    shown = {file.path: file for file in model.world.specs.values()}
    failures.check(set(page.listings) == set(shown), "not every file of specs/ is on the page, or another one is")
    for path, found in page.listings.items():
        failures.check("".join(piece.text for piece in found) == repo.read(path), f"{path} is not shown as it stands")
        failures.none([f"{path}: {name} is no link, no definition and no name bound nearby" for name in unmarked(found)])
        failures.none([f"{path}: {name} is bound in its clause, and a link" for name in wrong_links(found)])


def unmarked(found):
    """The names of a listing that are neither marked nor numbers nor signs of the language; and those that led nowhere."""
    names = [piece.text for piece in found if piece.kind == "s"]
    for piece in found:
        if piece.kind == "text":
            names += [match.group() for match in TOKEN.finditer(piece.text) if match.lastgroup in ("name", "other")]
    return [name for name in names if name not in SIGNS and not NUMBER.fullmatch(name)]


def clauses(found):
    """The pieces of each clause: from the name at its head up to the next head or definition."""
    parts = [[]]
    for piece in found:
        if piece.head or piece.kind == "dfn":
            parts.append([])
        parts[-1].append(piece)
    return [part for part in parts if part and part[0].head]


def wrong_links(found):
    """Names that a clause binds left of its = and that are links right of it, other than fields."""
    wrong = []
    for clause in clauses(found):
        equals = next((at for at, piece in enumerate(clause) if piece.kind == "text" and "=" in piece.text.split()), len(clause))
        bound = {piece.text for piece in clause[:equals] if piece.kind == "var"}
        for before, piece in zip(clause[equals:], clause[equals + 1 :]):
            is_field = before.text.endswith(".") or before.text.rstrip(" ").endswith(("{", ";"))
            if piece.kind == "a" and piece.text in bound and not is_field:
                wrong.append(piece.text)
    return wrong


# ---- docs/TRACE.md, README.md, the toolchain's names

def sources(model, failures):
    failures.none(model.problems)
    failures.none(model.world.unknown)
    failures.none(model.resolver.problems)
    failures.none(model.references.problems)
    uneven = [row for row in model.rows if len(row.cells) != len(row.header)]
    failures.none([f"docs/TRACE.md:{row.line}: {len(row.cells)} cells under {len(row.header)} heads" for row in uneven])
    failures.none([f'{file.path}:{line}: "{words}" stands in no row of docs/TRACE.md' for file, line, words in model.quotations.unknown])


def contract_tokens(model):
    """(function, token) of all contracts that are shown."""
    for function in model.functions:
        for line in model.contracts.function(function).lines:
            yield from ((function, token) for token in line)


def contracts(model, failures):
    lost = [(function, token) for function, token in contract_tokens(model) if token.role == "unresolved"]
    failures.none([f"{function.path}: {token.text}, in the contract of {function.title}, leads nowhere" for function, token in lost])
    for made in [made for types in model.world.declared.values() for made in types.values()]:
        lost = [token.text for line in model.contracts.declared(made).lines for token in line if token.role == "unresolved"]
        failures.none([f"{made.home.path}: {name}, in {made.kind} {made.name}, leads nowhere" for name in lost])


def tools(model, page, failures):
    """Each name of the toolchain that is used has an explanation, and each explanation is used."""
    used = set(page.links)
    for (module, name), tool in model.tools.known.items():
        is_sign = module == LANGUAGE and (name in SIGNS or name == "Type")
        if model.tools.explains(tool) and not is_sign:
            failures.check(f"#{target_id(tool)}" in used, f"toolchain.txt: {module}.{name} is explained, and not used")
    shown = [token for file in model.world.specs.values() for token in file.tokens] + [token for _, token in contract_tokens(model)]
    named = [token.target for token in shown if getattr(token.target, "kind", "") == "tool"]
    failures.none(sorted({f"{tool.module}.{tool.name}" for tool in named if not model.tools.explains(tool)}), "toolchain.txt does not explain ")


def sentences(model, failures):
    """Every sentence of a document that is at hand is quoted in docs/TRACE.md, word by word. The names of those documents."""
    others = [quotation for block in model.blocks if hasattr(block, "text") for quotation in quoted(block.text)]
    headings = [block.text for block in model.blocks if isinstance(block, Heading)]
    found = []
    for name, text, belongs in document.at_hand(headings):
        firsts = [quotation for row in model.rows if belongs(row) for quotation in quoted(row.cells[0])]
        failures.none([f'{name}, line {line}: "{words}" stands in no row of docs/TRACE.md' for line, words in document.missing(text, firsts + others)])
        failures.none([f'docs/TRACE.md: "{words}" is not in {name}' for words in document.strange(text, firsts)])
        found.append(name)
    return found


def run(model, text):
    """All tests: the failures, the page as it was read, and the documents that were at hand."""
    failures = Failures()
    page = Reading(text)
    pieces(model, failures)
    structure(page, failures)
    style(text, failures)
    listings(model, page, failures)
    sources(model, failures)
    contracts(model, failures)
    tools(model, page, failures)
    return failures, page, sentences(model, failures)
