#!/bin/sh
# reader.sh [--check]: writes target/reader/index.html, one page with the definitions in reading order, the table of sentences of documents 01 and 02 (docs/TRACE.md), contracts,
# theorems and tests, every name a link. With --check it also tests the page and that what docs/TRACE.md names is there; where the documents are at hand (beside the
# repository, or DOCUMENT=FILE and DOCUMENT_02=FILE) also that every sentence of them stands in the table, of document 02 those of the slips that have landed. Needs python3 alone.
exec python3 -B "$(dirname "$0")/reader/main.py" "$@"
