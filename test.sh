#!/bin/sh
# test.sh: everything that can be tested: the scripts of tests/ (joined, they are what the program `calls` is run on), the layout of the files, all
# proofs, the edits that must be refused, and the run. The last line is that of `rt ci`.
cd "$(dirname "$0")" || exit 2
sh tests/join.sh --check || exit 1
exec rt ci
