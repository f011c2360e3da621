#!/bin/sh
# join.sh [--check]: joins the scripts of this folder into the input of the program `calls`, and the answers that they carry behind '; =>'
# into what it must write. All scripts come twice: as they are, and with an `open` behind each `fresh` that is accepted, so that the calls go
# the plain way and the opened one. With --check it only says whether those files are up to date.
cd "$(dirname "$0")/.." || exit 2
work=$(mktemp -d) || exit 2
trap 'rm -rf "$work"' EXIT
cat tests/*.txt >"$work/once"
{
    cat "$work/once"
    echo 'list 0 ; => ok'
    awk '{ print } /^fresh( [^ ;]+)? *;/ && /; => ok$/ { print "open ; => ok" }' "$work/once"
} >"$work/stdin"
sed -n 's/^[^;].*; => \{0,1\}//p' "$work/stdin" >"$work/stdout"
if [ "${1-}" = --check ]; then
    cmp -s "$work/stdin" crates/calls/stdin && cmp -s "$work/stdout" crates/calls/stdout && exit 0
    echo "tests/join.sh: crates/calls/stdin and stdout are not those of tests/*.txt: run sh tests/join.sh" >&2
    exit 1
fi
cp "$work/stdin" crates/calls/stdin && cp "$work/stdout" crates/calls/stdout
echo "$(wc -l <"$work/stdout") answers"
