#!/bin/sh
# damage.sh [SEED] [--plant NAME]: loads damaged files of catalogues (document 02, Slip 3) by the library, half by the crate in rust/ and half by the function
# for C, and by the reading in oracle/reading, into lists of many lengths that hold any words. The files are tests/golden.catalogue and those of small
# stores, each byte of them set to each of the 256 values, and each cut at every length; 10,000 files by chance; and files of the longest store. Every
# reply and every word is compared, and what is loaded has to be written again as the same bytes. At the end stand the loads by their answers. On a
# difference it prints a short script that shows it, and exits with 1. FERIGULAN_LIB is as for linked.sh.
case "${1-}" in
'' | --plant) ;;
*[!0-9]*) sed -n '2,6s/^# //p' "$0" >&2 && exit 2 ;;
esac
here=$(cd "$(dirname "$0")" && pwd) || exit 2
exec sh "$here/linked.sh" --damage "$@" --golden "$(dirname "$here")/tests/golden.catalogue"
