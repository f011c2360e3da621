"""What links of the other parts lead to: contracts, theorems, lines of scripts, names of the toolchain; and the index of names."""
from html import escape

from listing import split_lines, target_id
from markup import link, marked, section, slug, table, tag
from sentences import function_id, shortened, test_id
from tools import LANGUAGE

LONG = 240
CONTRACTS = (
    "Signatures and contracts as they stand in the code, without the bodies: first the calls (types: fresh, kind and the makers; ty: all others), "
    "then the functions below them that the table of sentences names. <b>requires</b> is what a caller must see to, <b>ensures</b> what is proved of the "
    "answer and of every word. The calls require nothing."
)
THEOREMS = (
    "The theorems that the table of sentences names, by file: each with its statement; the proofs stand in the files. "
    "A name of a file of proofs that is not here has its place as a tooltip."
)
TESTS = (
    "Every line of a script of tests/ that the table of sentences names, with its answer. The lines before it in the script make the store. "
    'README.md, "A script", has the language.'
)
TOOLCHAIN = (
    "What the definitions and contracts use of the toolchain's libraries and of its language. "
    "A ◌ in a name is the place of an argument: <code>◌++◌</code> is written between two lists."
)


def paragraph(text):
    return f"<p>{text}</p>"


def numbers(rows):
    """Links back to rows."""
    return ", ".join(link(row.id, str(row.number)) for row in rows)


def place(path, line, rows):
    told = f"; sentences {numbers(rows)}" if rows else ""
    return tag("p", f"{escape(path)}line {line}{told}", class_="path")


# ---- contracts

def contracts(model, listing):
    parts, crate = [], None
    for function in model.functions:
        if function.crate != crate:
            crate = function.crate
            parts.append(f"<h3>{crate}</h3>")
        parts.append(contract(model, listing, function))
    return section("contracts", 2, "The functions and their contracts", paragraph(CONTRACTS), *parts)


def contract(model, listing, function):
    lines = listing.lines(model.contracts.function(function).lines, function.line, False)
    where = place(f"{function.path}, ", function.line, model.naming(function))
    trait = model.contracts.trait_of(function)
    promised = paragraph(f"What it requires and ensures stands in the trait {link(target_id(trait), f'<code>{trait.name}</code>')}.") if trait else ""
    return tag("div", f"<h4>{function.crate}::{function.title}</h4>{where}{promised}{lines}", id=function_id(function), class_="entry")


# ---- theorems

def theorems(model, listing):
    parts = []
    for path, found in model.proofs.items():
        parts.append(f"<h3>{escape(path)}</h3>")
        parts += [theorem(model, listing, made) for made in found]
    return section("theorems", 2, "The theorems and their statements", paragraph(THEOREMS), *parts)


def theorem(model, listing, made):
    lines = listing.lines(statement_lines(made), made.site.line, False, made.home)
    where = place("", made.site.line, model.naming(made))
    return tag("div", f"<h4>{escape(made.name)}</h4>{where}{lines}", id=target_id(made), class_="entry")


def statement_lines(made):
    """The lines of a signature: the one with the name, and those below it that are indented more."""
    lines = split_lines(made.home.tokens)
    first = made.site.line - 1
    last = first + 1
    while last < len(lines) and lines[last] and width(lines[last]) > width(lines[first]):
        last += 1
    return lines[first:last]


def width(line):
    return len(line[0].text) if line and line[0].kind == "space" else 0


# ---- lines of scripts

def tests(model):
    rows, ids = [], []
    for (script, line), text in sorted(model.references.tests.items()):
        call, _, told = text.partition(" ; =>")
        shown = [f"<code>{escape(shortened(part.strip(), LONG))}</code>" for part in (call, told)]
        ids.append(test_id(script, line))
        rows.append([f"{script}:{line}", *shown, numbers(model.naming((script, line)))])
    listed = table(["line", "call", "answer", "sentences"], rows, "stack tests", ids)
    return section("tests", 2, "The lines of the tests", paragraph(TESTS), listed, find="lines with these words")


# ---- the toolchain's names

def toolchain(model):
    rows, ids = [], []
    for (module, name), says in model.tools.explained.items():
        ids.append(target_id(model.tools.known[module, name]))
        rows.append([f"<code>{escape(name.lstrip('.') if module == LANGUAGE else name)}</code>", marked(says), escape(module)])
    return section("toolchain", 2, "Names of the toolchain", paragraph(TOOLCHAIN), table(["name", "means", "module"], rows, "stack tools", ids))


# ---- the index

def index(model):
    found = [(made.name, f"{file.crate}/{file.name}", made) for file in model.world.specs.values() for made in file.definitions]
    for crate, types in model.world.declared.items():
        for made in types.values():
            found += [(entry.name, f"{crate}/src", entry) for entry in [made, *made.members.values()]]
    items = [index_item(*entry) for entry in sorted(found, key=lambda entry: (entry[0].strip("◌").lower(), entry[1]))]
    return section("index", 2, "Index of names", '<ul class="index">' + "\n".join(items) + "</ul>", find="names with these letters")


def index_item(name, home, made):
    owner = f" of {escape(made.owner.name)}" if made.owner else ""
    return f"<li>{link(slug(made.id), f'<code>{escape(name)}</code>')}{owner} <span>{home}</span></li>"
