#!/bin/sh
# architecture.sh [--check]: writes what docs/ARCHITECTURE.md takes from crates.txt and the sources: the table of crates in the page, and the drawing
# docs/architecture.svg. Then it says what the page names that is not there, and exits with 1 if there is any. With --check it writes nothing, and
# says too what is not up to date.
cd "$(dirname "$0")/.." || exit 2
command -v python3 >/dev/null || { echo "architecture.sh: this needs python3" >&2; exit 2; }
case "$#:${1-}" in 0: | 1:--check) ;; *) echo "use: sh docs/architecture.sh [--check]" >&2; exit 2 ;; esac
exec python3 -B docs/architecture/main.py "$@"
