#!/bin/sh
# compare.sh N [SEED] [--calls NAMES] [--opened]: runs at least N calls by chance on the original Rust and on the program `calls`, and compares every
# answer. The closing lines count the calls by name and refusal. On a difference it prints a short script that shows it, and exits with 1.
# CALLS names another program than target/bin/calls; ORIGINAL another folder of the original than ../shared/docs/src.
here=$(cd "$(dirname "$0")" && pwd) || exit 2
top=$(dirname "$here")
program=${CALLS:-$top/target/bin/calls}
case "${1-}" in
'' | *[!0-9]*) sed -n '2,4s/^# //p' "$0" >&2 && exit 2 ;;
esac
[ -x "$program" ] || { echo "oracle/compare.sh: $program: no program there. 'sh run.sh </dev/null' builds it; CALLS names another" >&2; exit 2; }
oracle=$(sh "$here/build.sh") || exit 2
mkdir -p "$top/target/oracle/compare" || exit 2
folder=$(mktemp -d "$top/target/oracle/compare/run.XXXXXX") || exit 2
trap 'rm -rf "$folder"' EXIT
"$oracle" compare "$@" --program "$program" --folder "$folder"
