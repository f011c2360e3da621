"""The definitions: every file in reading order with the enums that it goes by, and behind them the files that no answer is defined by."""
from html import escape

from lists import numbers
from markup import marked, section, slug, tag

ORDER = "What a reader has to believe. Where a definition goes by the cases of an enum of the code, the enum stands before it."
FURTHER = (
    "They say once more which value of the code is which call, or what the functions below the calls require and leave: two segments of a store, a memory of "
    "answers, an index. No answer is defined by them, and they need not be believed. They stand here so that every name leads to its definition."
)


def file_section(model, listing, file):
    rows = model.naming(file)
    told = f"; sentences {numbers(rows)}" if rows else ""
    path = tag("p", f"{escape(file.path)}{told}", class_="path")
    return section(slug(file.id), 4, f"{file.crate}/{file.name}", path, listing.of_file(file, model.quoted_lines(file)))


def type_section(model, listing, made):
    shown = model.contracts.declared(made)
    path = tag("p", f"{escape(shown.entry.path)}, line {shown.entry.line}", class_="path")
    return "<div>" + path + listing.lines(shown.lines, shown.entry.line) + "</div>"


def entry_section(model, listing, number, entry):
    """A row of README.md's reading order."""
    types = [model.world.declared[crate][name] for name, crate in entry.enums]
    inner = [type_section(model, listing, made) for made in types] + [file_section(model, listing, model.world.specs[key]) for key in entry.files]
    names = ", ".join(f"{crate}/{file}" for crate, file in entry.files)
    return section(f"d{number}", 3, f"{number}. {names}", tag("p", marked(entry.says), class_="says"), *inner)


def definitions(model, listing):
    parts = [entry_section(model, listing, number, entry) for number, entry in enumerate(model.order, 1)]
    return section("definitions", 2, "The definitions, in reading order", f"<p>{ORDER}</p>", *parts)


def further(model, listing):
    """Files that a reader need not believe, so that every name leads somewhere."""
    types = [type_section(model, listing, made) for made in model.further_types]
    files = [file_section(model, listing, file) for file in model.further]
    code = section("further-types", 3, "Further enums and structs of the code", *types)
    return section("further", 2, "Further files of specs/", f"<p>{FURTHER}</p>", *files, code)
