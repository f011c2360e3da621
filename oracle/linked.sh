#!/bin/sh
# linked.sh N [SEED] [--calls NAMES] [--plant NAME]: runs at least N calls by chance, in memory, on the library (by the crate in rust/ and by its functions
# for C), on the reading of document 01 in oracle/reading and, as far as it can hold the types, on the original Rust. After each call the replies, every
# word of list and output, and guard words around them are compared. On a difference it prints a short script that shows it, and exits with 1.
# linked.sh --planted [SEED]: plants mistakes between the library and the comparison, one after the other, and shows that each is found.
# linked.sh --lists N [SEED] [--plant NAME]: what lists.sh runs. linked.sh --damage [SEED] --golden FILE [--plant NAME]: what damage.sh runs.
# FERIGULAN_LIB names another folder with liblattice_c.a than target/staticlib; ORIGINAL another folder of the original than ../shared/docs/src.
here=$(cd "$(dirname "$0")" && pwd) || exit 2
top=$(dirname "$here")
FERIGULAN_LIB=${FERIGULAN_LIB:-$top/target/staticlib}
export FERIGULAN_LIB
mode=linked
case "${1-}" in
--planted | --lists | --damage) mode=${1#--} && shift ;;
esac
case "$mode ${1-}" in
planted* | damage*) ;;
*' ' | *' '*[!0-9]*) sed -n '2,7s/^# //p' "$0" >&2 && exit 2 ;;
esac
[ -r "$FERIGULAN_LIB/liblattice_c.a" ] || {
    echo "oracle/linked.sh: $FERIGULAN_LIB/liblattice_c.a: no archive there. 'sh archive.sh lattice_c' makes it; FERIGULAN_LIB names another folder" >&2
    exit 2
}
FERIGULAN_LIB=$(cd "$FERIGULAN_LIB" && pwd)
oracle=$(LINKED=1 sh "$here/build.sh") || exit 2
folder=$top/target/oracle/linked
mkdir -p "$folder" || exit 2
"$oracle" "$mode" "$@" --folder "$folder"
status=$?
[ "$status" -le 2 ] || echo "oracle/linked.sh: the program broke off ($status). Its lines above say how far it was; the same seed makes the same calls" >&2
exit "$status"
