"""reader.sh [--check]: writes target/reader/index.html, and with --check tests it, and docs/TRACE.md, which it is made of.

What is read: repo (the files, the reading order), rt (the code), trace_md and references (docs/TRACE.md), document (documents 01 and 02), tools (toolchain.txt).
How names are looked up: lex, blocks (tokens, declarations), names, world (what is defined where), kinds, terms, patterns, resolve; contracts for the code's.
What ties them: quotations (comments to rows), cases (the twelve), model (all of it).
How it is shown: markup, listing, top, definitions, sentences, lists, page, with style.css and script.js. How it is tested: reading, test."""
import sys

import repo
import test
from model import Model
from page import page

TARGET = repo.TOP / "target" / "reader" / "index.html"
USAGE = "usage: sh docs/reader.sh [--check]   (DOCUMENT=FILE names document 01 and DOCUMENT_02=FILE document 02, whose sentences --check looks for)"


def write(text):
    TARGET.parent.mkdir(parents=True, exist_ok=True)
    TARGET.write_text(text, encoding="utf-8")
    print(f"reader: wrote {TARGET.relative_to(repo.TOP)}, {len(text.encode()) // 1024} KiB")


def told(model, found, at_hand):
    """What the page has, in a few lines."""
    linked = sum(piece.kind == "a" for pieces in found.listings.values() for piece in pieces)
    theorems = sum(map(len, model.proofs.values()))
    yield f"{len(found.listings)} files of definitions with {linked} names linked; {len(found.links)} links in all, to {len(set(found.links))} places"
    yield f"{len(model.rows)} rows of the table of sentences, {model.quotations.count} quotations in comments that lead there"
    yield f"{len(model.functions)} contracts, {theorems} theorems, {len(model.references.tests)} lines of tests"
    for name in at_hand:
        yield f"every sentence of {name} was looked for"
    if not at_hand:
        yield "no document is at hand (DOCUMENT=FILE, DOCUMENT_02=FILE): their sentences were not looked for"


def check(model, text):
    failures, found, at_hand = test.run(model, text)
    for line in told(model, found, at_hand):
        print(f"reader: {line}")
    sys.stdout.flush()
    for failure in failures.found:
        print(f"reader: {failure}", file=sys.stderr)
    print(f"reader: {failures.count} tests, {len(failures.found)} failures")
    return 1 if failures.found else 0


def main(arguments):
    if arguments not in ([], ["--check"]):
        print(USAGE, file=sys.stderr)
        return 2
    model = Model()
    text = page(model)
    write(text)
    return check(model, text) if arguments else 0


if __name__ == "__main__":
    sys.exit(main(sys.argv[1:]))
