#!/bin/sh
# lists.sh N [SEED] [--plant NAME]: merges at least N lists by chance, on the library, the reading and the original Rust as linked.sh does, in stores that calls
# alone have made, plain and opened. The types of a list are merged again and again, in other orders and some of them twice, with other calls in between:
# all lists of the same types have to give one handle where these reach no memory type and no forward reference, and each has to give what the Rust's meets
# give one after another. The closing lines count both. On a difference it prints a short script that shows it, and exits with 1.
# FERIGULAN_LIB and ORIGINAL are as for linked.sh.
case "${1-}" in
'' | *[!0-9]*) sed -n '2,6s/^# //p' "$0" >&2 && exit 2 ;;
esac
exec sh "$(dirname "$0")/linked.sh" --lists "$@"
