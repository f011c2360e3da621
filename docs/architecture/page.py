"""The table of crates that stands in the page between two marks."""

from repository import about

PAGE = "docs/ARCHITECTURE.md"
BEGIN = "<!-- the crates: made by docs/architecture.sh from crates.txt and the first sentence of each crate's source -->"
END = "<!-- the end of the crates -->"


def table(layers, problems):
    lines = ["| crate | is |", "|---|---|"]
    for layer in layers:
        lines.append(f"| **{layer.number} {layer.name}** | {stands_on(layer)} |")
        lines += [f"| {crate.name} | {cell(about(crate.name, problems))} |" for crate in layer.crates]
    return "\n".join(lines)


def cell(sentence):
    return sentence.replace("|", "\\|")


def stands_on(layer):
    if not layer.below:
        return "**stands on no other layer**"
    return "**stands on " + " and ".join(str(number) for number in layer.below) + "**"


def with_table(text, layers, problems):
    """The page with the table as it is now."""
    if text.count(BEGIN) != 1 or text.count(END) != 1 or text.index(BEGIN) > text.index(END):
        problems.append(f"{PAGE}: these two lines have to stand there once each, with the table between them:\n  {BEGIN}\n  {END}")
        return text
    before, rest = text.split(BEGIN)
    return f"{before}{BEGIN}\n{table(layers, problems)}\n{END}{rest.split(END)[1]}"
