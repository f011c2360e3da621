#!/bin/sh
# run.sh [PART..]: builds the static libraries, the benchmark and the oracle, and runs the named parts, or all but the last: makers, operations, opened, told, lists,
# beside, towers, search, heads, catalogue, growth. It needs rustc beside the Rattle kit, cargo for the oracle, and nm and objcopy for an old library.
#   OLD=ARCHIVE   an older liblattice_c.a, measured beside the new one by `beside` and `catalogue`
#   ONE_WORD=1    the old library's functions return one word, the answer or 2 to the 63 and the refusal's number, and are lent none
#   NEW=ARCHIVE   a liblattice_c.a that is built already, to be measured in the place of one built here
#   WORDS="N .."  the lengths of the lists that `opened`, `told`, `catalogue` and `growth` measure, in the place of their own; MEMORY=N the words of their memory of answers
here=$(cd "$(dirname "$0")" && pwd) || exit 2
# what is named from where the caller stands, from anywhere
whole() {
    [ -r "$1" ] || { echo "run.sh: $1: cannot be read" >&2; return 1; }
    echo "$(cd "$(dirname "$1")" && pwd)/$(basename "$1")"
}
[ -z "$OLD" ] || OLD=$(whole "$OLD") || exit 2
[ -z "$NEW" ] || NEW=$(whole "$NEW") || exit 2
cd "$here/.." || exit 2
libs=target/bench-libs
rm -rf "$libs" && mkdir -p "$libs" || exit 2

# the names that an archive defines for others
defined() { nm -g --defined-only --format=posix "$1" | awk 'NF > 2 { print $1 }' | sort -u; }
# whether two archives define no name in common, so that both can be linked
apart() {
    defined "$1" >"$libs/first" && defined "$2" >"$libs/second" && [ -z "$(comm -12 "$libs/first" "$libs/second")" ]
}

if [ -z "$NEW" ]; then
    echo "building the library .." >&2
    sh archive.sh lattice_c >&2 || exit 1
    NEW=target/staticlib/liblattice_c.a
fi
cp "$NEW" "$libs/libnew.a" || exit 1
flags="-l static=new"
# whether the library has opened stores; where nm is missing it is taken to have them
if ! command -v nm >/dev/null || defined "$libs/libnew.a" | grep -qx ferigulan_open; then
    flags="$flags --cfg opened"
else
    echo "run.sh: the library has no ferigulan_open, the tables of opened stores are left out" >&2
fi
# and whether it has the calls that tell something of a type
if ! command -v nm >/dev/null || defined "$libs/libnew.a" | grep -qx ferigulan_opened_offsets; then
    flags="$flags --cfg told"
else
    echo "run.sh: the library has no ferigulan_opened_offsets, the tables of what is told of types are left out" >&2
fi

# and whether it merges whole lists
if ! command -v nm >/dev/null || defined "$libs/libnew.a" | grep -qx ferigulan_opened_meet_list; then
    flags="$flags --cfg lists"
else
    echo "run.sh: the library has no ferigulan_opened_meet_list, the table of lists is left out" >&2
fi

# and whether it saves and loads
if ! command -v nm >/dev/null || defined "$libs/libnew.a" | grep -qx ferigulan_load; then
    flags="$flags --cfg catalogue"
else
    echo "run.sh: the library has no ferigulan_load, the table of saving and loading is left out" >&2
fi

# whether a part is to be run: all but growth are where none is named
asked() {
    part=$1 && shift
    [ $# -eq 0 ] && return
    for p; do [ "$p" = "$part" ] && return; done
    return 1
}

# the old library's names get `old_` before them; what it takes from others, as memset, stays
old() {
    command -v nm >/dev/null && command -v objcopy >/dev/null || { echo "run.sh: nm and objcopy are not on the path" >&2; return 1; }
    defined "$OLD" | awk '{ print $1, "old_" $1 }' >"$libs/renamed" &&
        objcopy --redefine-syms="$libs/renamed" "$OLD" "$libs/libold.a" && apart "$libs/libold.a" "$libs/libnew.a"
}
if [ -z "$OLD" ]; then
    if asked beside "$@"; then echo "run.sh: OLD names no old library, the table of old beside new is left out" >&2; fi
elif old; then
    flags="$flags -l static=old --cfg old${ONE_WORD:+ --cfg one_word}"
else
    echo "run.sh: $OLD could not be renamed, the table of old beside new is left out" >&2
fi

if ! asked search "$@" && ! asked heads "$@"; then
    :
elif echo "building the search .." >&2 && sh archive.sh search_c >&2 && cp target/staticlib/libsearch_c.a "$libs" && apart "$libs/libsearch_c.a" "$libs/libnew.a"; then
    flags="$flags -l static=search_c --cfg search"
else
    echo "run.sh: the search was not built, its tables are left out" >&2
fi

rustc --edition 2021 -C opt-level=3 -C target-cpu=x86-64 -L "$libs" $flags -o target/bench bench/main.rs || exit 1
# the Rust beside it, where it can be built: without its debug assertions
oracle=$(PROFILE=fast sh oracle/build.sh) || { echo "run.sh: the oracle was not built, the Rust is left out" >&2; oracle=; }
exec target/bench ${oracle:+--rust "$oracle"} "$@"
