#!/bin/sh
# catalogue.sh [ARGUMENTS..]: the program `catalogue` (show, check, diff). The proved archive is built first where there is none, which takes some minutes once, and the program
# where it is not up to date. FERIGULAN_LIB names a folder that has the archive. After a change in crates/ build the archive anew: sh archive.sh lattice_c.
top=$(cd "$(dirname "$0")/.." && pwd) || exit 2
FERIGULAN_LIB=${FERIGULAN_LIB:-$top/target/staticlib}
if [ "$FERIGULAN_LIB" = "$top/target/staticlib" ] && [ ! -r "$FERIGULAN_LIB/liblattice_c.a" ]; then
    echo "catalogue.sh: building the archive: the proofs are checked first .." >&2
    sh "$top/archive.sh" lattice_c >&2 || { echo "catalogue.sh: the archive was not built" >&2; exit 2; }
fi
FERIGULAN_LIB=$(cd "$FERIGULAN_LIB" && pwd) || { echo "catalogue.sh: FERIGULAN_LIB names no folder" >&2; exit 2; }
export FERIGULAN_LIB
cargo build -q --release --manifest-path "$top/rust/Cargo.toml" --target-dir "$top/target/rust" --bin catalogue || exit 2
exec "$top/target/rust/release/catalogue" "$@"
