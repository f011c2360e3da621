#!/bin/sh
# both-ways.sh N [SEED] [--calls NAMES]: runs N lists of calls by chance, whose words are poked by chance (equal entries, damaged stores), on the
# program `calls`: once as they are, and once with `open` behind each line that changes the list otherwise than by a call (fresh, list, poke).
# All other lines must answer the same. On a difference it prints a short script that shows it, and exits with 1.
# CALLS names another program than target/bin/calls; OTHER one for the opened way, where it is to be another than for the plain one;
# ORIGINAL another folder of the original than ../shared/docs/src: the calls come from lists that the Rust has run.
here=$(cd "$(dirname "$0")" && pwd) || exit 2
top=$(dirname "$here")
program=${CALLS:-$top/target/bin/calls}
other=${OTHER:-$program}
case "${1-}" in
'' | *[!0-9]*) sed -n '2,6s/^# //p' "$0" >&2 && exit 2 ;;
esac
for p in "$program" "$other"; do
    [ -x "$p" ] || { echo "oracle/both-ways.sh: $p: no program there. 'sh run.sh </dev/null' builds it; CALLS and OTHER name others" >&2; exit 2; }
done
oracle=$(sh "$here/build.sh") || exit 2
mkdir -p "$top/target/oracle/compare" || exit 2
folder=$(mktemp -d "$top/target/oracle/compare/run.XXXXXX") || exit 2
trap 'rm -rf "$folder"' EXIT
"$oracle" both-ways "$@" --program "$program" --other "$other" --folder "$folder"
