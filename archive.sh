#!/bin/sh
# archive.sh NAME: proves the static library NAME (lattice_c, or search_c for the benchmark) where it is not proved yet, builds it, and puts
# libNAME.a into target/staticlib. It takes as long as its proofs once.
top=$(cd "$(dirname "$0")" && pwd) || exit 2
name=${1:?archive.sh: name a static library: lattice_c}
[ -d "$top/crates/$name" ] || { echo "archive.sh: there is no crate $name" >&2; exit 2; }
(cd "$top/crates/$name" && rt lib) || { echo "archive.sh: lib$name.a was not built" >&2; exit 1; }
mkdir -p "$top/target/staticlib" && cp "$top/crates/$name/out/lib$name.a" "$top/target/staticlib/lib$name.a"
