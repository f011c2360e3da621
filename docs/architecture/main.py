"""Writes the made parts of docs/ARCHITECTURE.md, or says whether they are up to date; and whether all that the page names is there."""

import sys

import drawing
import layers
import named
import page
import repository

DRAWING = "docs/architecture.svg"


def refresh(path, text, write, problems):
    file = repository.TOP / path
    if file.exists() and file.read_text() == text:
        return
    if write:
        file.write_text(text)
        print(f"{path}: written")
    else:
        problems.append(f"{path}: not up to date: run sh docs/architecture.sh")


def main(write):
    problems = []
    crates = repository.crates(problems)
    stack = [] if problems else layers.layers_of(crates, problems)
    if problems:
        return finish(problems, "")
    text = page.with_table((repository.TOP / page.PAGE).read_text(), stack, problems)
    refresh(page.PAGE, text, write, problems)
    refresh(DRAWING, drawing.svg(stack), write, problems)
    counts = named.check(text, problems)
    arrows = sum(len(layer.below) for layer in stack)
    return finish(problems, f"{page.PAGE}: {len(crates)} crates in {len(stack)} layers with {arrows} arrows; {counts}: all there")


def finish(problems, summary):
    for problem in problems:
        print(f"architecture.sh: {problem}", file=sys.stderr)
    if not problems:
        print(summary)
    return 1 if problems else 0


if __name__ == "__main__":
    sys.exit(main("--check" not in sys.argv[1:]))
