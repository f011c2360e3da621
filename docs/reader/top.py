"""The beginning of the page: what it is, demand 3's theorem, and the twelve cases."""
import re
from html import escape

import repo
from cases import cases
from listing import split_lines, target_id
from markup import link, marked, section, slug, table

INTRO = [
    "Here is all that a reader of document 01, and of document 02 as far as it has landed, has to believe: the definitions, as they stand in the repository, in reading order.",
    "Each name leads to where it is defined. Words in quotation marks in a comment are the documents', and lead to their row in the table of sentences.",
    "That table goes from each sentence of the documents to its definition, to the function and its contract, to the proof and to the test.",
    "Proved is that the functions do just what the definitions say, on any words whatever. That the definitions say what the documents say is for you to read.",
    "On top stand demand 3's theorem and the table of twelve cases, which say the most in the fewest lines.",
]

NOTATION = [
    ("use M.{a, b}", "the names a and b are those of the file M"),
    ("abbrev pub f : A → B → C", "f takes an A and a B and gives a C. The lines below say what it gives; of several, the one whose patterns fit"),
    ("abbrev, unfoldable, pub", "how other files may use the name; for what it means they can be passed over"),
    ("f x (y ∷ ys) = ..", "a pattern: y is the first element of a list, ys the rest. zero is 0, and suc n any number above it, with n one less"),
    ("f a b", "f of a and b; brackets only group: f (g a) b is f of g a and b"),
    ("λ u. e", "the function that gives e for u"),
    ("cond t a b", "a where the test t holds, else b"),
    ("t ⇒ a ∣ rest", "a where the test t holds, else what the lines below say"),
    ("4 when t otherwise ..", "refusal 4 where t holds, else the next row"),
    ("record { words = u; .. }", "a record with these fields; g.words is a field of g"),
    ("let m = e in ..", "m stands for e in what follows"),
    ("a ≡ b", "the statement that a and b are the same. A theorem is a name with a statement: it has a proof"),
]


def intro():
    return '<ul class="intro">' + "\n".join(f"<li>{escape(line, quote=False)}</li>" for line in INTRO) + "</ul>"


def notation():
    rows = [(f"<code>{escape(form)}</code>", escape(says, quote=False)) for form, says in NOTATION]
    return section("notation", 2, "How a definition is read", table(["written", "means"], rows, "two"))


def lines_of_item(items, kind, name):
    """The first and last line of a declaration, wherever it is nested."""
    for item in items:
        if item.kind == kind and any(token.text == name for token in item.tokens[:4]):
            return item.tokens[0].line, last_line(item)
        found = lines_of_item(item.body, kind, name)
        if found:
            return found
    return None


def last_line(item):
    return max([item.tokens[-1].line] + [last_line(inner) for inner in item.body])


def signature_line(listing, made):
    """The line of a theorem's statement."""
    return listing.lines([split_lines(made.home.tokens)[made.site.line - 1]], made.site.line, False, made.home)


def claimed(file):
    """The table of docs/DEMAND3.md, "What is claimed", with the statement's names as links."""
    told = repo.read("docs/DEMAND3.md").split("## What is claimed", 1)[1].split("\n## ", 1)[0]
    rows = [[cell.strip() for cell in line.strip("|").split(" | ")] for line in told.split("\n") if line.startswith("|")]
    ids = {made.name: target_id(made) for made in file.definitions}
    linked = [[marked(law), re.sub(r"`([\w-]+)`", lambda match: link(ids[match[1]], f"<code>{match[1]}</code>"), names)] for law, names in rows[2:]]
    return table(["law", "in the statement"], linked, "two")


def demand3(model, listing):
    file = model.world.specs["demand3", "Demand3"]
    proof = model.world.proof("demand3", "Demand3").exports["demand3"]
    first, last = lines_of_item(file.items, "signature", "Demand3")
    return section(
        "demand3", 2, "Demand 3: the laws of every list of calls",
        "<p>Take a list of words of an allowed length, let <code>fresh</code> fill it, and make any list of calls on it, with any arguments. "
        "For types that reach no memory type and no forward reference these laws hold in the store that is left (docs/DEMAND3.md):</p>",
        claimed(file),
        f"<p>The theorem, {link(target_id(proof), proof.home.path)}, and its statement, {link(slug(file.id), file.path)}:</p>",
        signature_line(listing, proof),
        listing.part(file, first, last + 1),
        listing.part(file, *lines_of_item(file.items, "record", "Laws")),
    )  # fmt: skip


def case_rows(model, listing, name):
    """A row for each case: its number, the document's words, the calls, and the source."""
    file = model.world.specs["twelve", "Cases"]
    rows = []
    for number, case in enumerate(cases(file, name), 1):
        comment = [token for token in file.tokens if token.kind == "comment" and case.first <= token.line <= case.last]
        quoted = [link(mark.target.id, escape(token.text[mark.start : mark.end], quote=False), "q") for token in comment for mark in model.marks(token)]
        calls = "".join(f"<li>{call_line(call, told)}</li>" for call, told in case.calls)
        rows.append([str(number), quoted[0] if quoted else "", f"<ol>{calls}</ol>", listing.part(file, case.first, case.last)])
    return rows


def call_line(call, told):
    return f"<code>{escape(call)}</code>" + (f" → <code>{escape(told)}</code>" if told else "")


def twelve(model, listing):
    file = model.world.specs["twelve", "Cases"]
    proofs = model.world.proof("twelve", "Twelve").exports
    heads = ["no.", "document 01", "calls on a fresh store, and their answers", "source"]
    return section(
        "twelve", 2, "The twelve cases",
        "<p>Each case is a list of calls with their answers, from a fresh store, so that the first new entry has handle 94 "
        f"({link(slug(file.id), file.path)}). That all of them hold is one theorem, computed over the same <code>run</code> that the contracts cite:</p>",
        signature_line(listing, proofs["twelve"]),
        table(heads, case_rows(model, listing, "twelve_cases"), "stack cases"),
        "<p>Document 01's traps, and what it says is also to be run, are a second table:</p>",
        signature_line(listing, proofs["traps"]),
        table(heads, case_rows(model, listing, "trap_cases"), "stack cases"),
    )  # fmt: skip
