"""Documents 01 and 02, where they are at hand: whether every sentence of them stands in docs/TRACE.md, of document 02 those of the slips that have landed. The documents are no part of the repository."""
import os
import re
from pathlib import Path

import repo
from trace_md import fragments, plain

FOLDER = repo.TOP.parent / "shared" / "docs"
JOINING = {"and", "or", "in", "of"}
SLIP = re.compile(r"\*\*Slip (\d+)\.")
SECOND = "Document 02"


def path(variable, usual):
    """The file that the variable names, or the one in the folder beside the repository, or None."""
    named = os.environ.get(variable)
    if named and not Path(named).is_file():
        raise SystemExit(f"reader: {variable}={named}: no such file")
    if named:
        return Path(named)
    return FOLDER / usual if (FOLDER / usual).exists() else None


def landed(text, headings):
    """Document 02 without the slips that no heading of docs/TRACE.md names; its lines keep their numbers."""
    numbers = {number for heading in headings if heading.startswith(SECOND) for number in re.findall(r"Slip (\d+)", heading)}
    slips = [(SLIP.match(line), line) for line in text.split("\n")]
    return "\n".join("" if slip and slip[1] not in numbers else line for slip, line in slips)


def at_hand(headings):
    """(name, text, whether a row belongs to it) of each document that is at hand."""
    first, second = path("DOCUMENT", "01-scope.md"), path("DOCUMENT_02", "02-change-requests.md")
    if first:
        yield "document 01", first.read_text(encoding="utf-8"), lambda row: not row.heading.text.startswith(SECOND)
    if second:
        yield "document 02", landed(second.read_text(encoding="utf-8"), headings), lambda row: row.heading.text.startswith(SECOND)


def passages(text, heads=False):
    """(line, text) of each paragraph, list item and table cell; headings, bold titles and, unless asked for, the heads of tables are no sentences."""
    found = []
    lines = text.split("\n")
    for number, line in enumerate(lines, 1):
        is_head = number < len(lines) and lines[number].startswith("|---")
        if not line or line.startswith(("#", "|---")) or (is_head and not heads):
            continue
        parts = [cell for cell in line.strip("|").split("|")] if line.startswith("|") else [line]
        for part in parts:
            cleaned = plain(re.sub(r"\*\*[^*]*\*\*", "", part).removeprefix("- "))
            if re.search(r"[A-Za-z]", cleaned):
                found.append((number, cleaned))
    return found


def covered(passage, quotation):
    """The parts of a passage that a quotation has, words that '..' leaves out among them."""
    parts = fragments(quotation)
    spans, start = [], 0
    for part in parts:
        match = re.search(rf"(?<!\w){re.escape(part)}(?!\w)", passage[start:])
        if not match:
            return []
        spans.append((start + match.start(), start + match.end()))
        start += match.end()
    if not spans:
        return []
    end = spans[-1][1]
    if plain(quotation).endswith(".."):
        stop = re.search(r"\. |\.?$", passage[end:])
        end += stop.start() if stop else 0
    return [(spans[0][0], end)]


def uncovered(passage, quotations):
    """The words of a passage that no quotation has, in runs."""
    open_at = [True] * len(passage)
    for quotation in quotations:
        at = 0
        while True:
            spans = covered(passage[at:], quotation)
            if not spans:
                break
            for start, end in spans:
                open_at[at + start : at + end] = [False] * (end - start)
            at += spans[0][0] + 1
    left = "".join(char if is_open else "\n" for char, is_open in zip(passage, open_at))
    runs = [run.strip(" ,;:.()\"") for run in left.split("\n")]
    return [run for run in runs if re.search(r"[A-Za-z]", run) and not set(run.split()) <= JOINING]


def missing(text, quotations):
    """(line, words) of each sentence of the document that the quotations leave out."""
    return [(line, run) for line, passage in passages(text) for run in uncovered(passage, quotations)]


def strange(text, quotations):
    """The quotations that the document does not have."""
    found = [passage for _, passage in passages(text, heads=True)]
    return [quotation for quotation in quotations if not any(covered(passage, quotation) for passage in found)]
