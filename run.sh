#!/bin/sh
# run.sh [SCRIPT..]: runs scripts of calls (standard input if none is named) and prints one line a call. Builds the program first, where
# it is not built yet: only a proved program is built, so that it takes as long as its proofs once.
top=$(cd "$(dirname "$0")" && pwd) || exit 2
program=$top/target/bin/calls
if [ ! -x "$program" ]; then
    echo "building calls: the proofs are checked first .." >&2
    (cd "$top/crates/calls" && rt run </dev/null >&2) || { echo "run.sh: the program was not built" >&2; exit 1; }
    mkdir -p "$top/target/bin" && cp "$top/crates/calls/out/calls" "$program" || exit 1
fi
if [ $# -eq 0 ]; then exec "$program"; fi
for script in "$@"; do
    [ -r "$script" ] || { echo "run.sh: $script: cannot be read" >&2; exit 2; }
    "$program" <"$script" || exit 1
done
