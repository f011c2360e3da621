#!/bin/sh
# build.sh [FOLDER]: builds the oracle around the original Rust, whose eight files are read from FOLDER (the environment variable ORIGINAL,
# or ../shared/docs/src beside the repository, where none is named). Everything that is built or fetched goes into target/oracle.
# The last line it prints is the path of the program. PROFILE=fast builds it without debug assertions, for timing. CRATES names a folder
# of crates made by `cargo vendor`, to be used in the place of Debian's packages. LINKED=1 builds the linked comparison into it (linked.sh).
here=$(cd "$(dirname "$0")" && pwd) || exit 2
top=$(dirname "$here")
out=$top/target/oracle
folder=${1:-${ORIGINAL:-$top/../shared/docs/src}}
profile=${PROFILE:-release}

fail() {
    echo "oracle/build.sh: $*" >&2
    exit 2
}

files="datastructures/arena.rs sea_of_nodes/types.rs sea_of_nodes/types/field.rs sea_of_nodes/types/ty.rs sea_of_nodes/types/type.rs
    sea_of_nodes/types/type_float.rs sea_of_nodes/types/type_integer.rs sea_of_nodes/types/type_struct.rs"

# hashbrown 0.12.3, which the original uses, and what it needs: Debian 12's packages of the crates' sources. Nothing is installed.
packages="librust-hashbrown-dev librust-ahash-0.7-dev librust-getrandom-dev librust-once-cell-dev librust-version-check-dev
    librust-cfg-if-dev librust-libc-dev"

command -v cargo >/dev/null && command -v rustc >/dev/null || fail "cargo and rustc are needed (1.82 or later), and not on the path"

# Copies a file only where it differs, so that cargo builds again only what changed.
copy() {
    cmp -s "$1" "$2" || { mkdir -p "$(dirname "$2")" && cp "$1" "$2"; } || fail "cannot copy $1"
}

copy_original() {
    src=$folder/src
    [ -d "$src" ] || src=$folder
    for f in $files; do
        [ -r "$src/$f" ] || fail "$src/$f: cannot be read. Name the folder of the original: sh oracle/build.sh FOLDER, or ORIGINAL=FOLDER"
        copy "$src/$f" "$out/original/src/$f"
    done
    for f in $(cd "$here/original" && find . -type f); do copy "$here/original/$f" "$out/original/$f"; done
}

# Fetches the packages where they are not there, and unpacks them. Debian 12 has hashbrown 0.12; other systems may have another one.
fetch_crates() {
    hashbrown=$out/crates/usr/share/cargo/registry/hashbrown-0.12.3
    [ -d "$hashbrown" ] && return
    mkdir -p "$out/debs"
    if ! ls "$out"/debs/librust-hashbrown-dev_*.deb >/dev/null 2>&1; then
        command -v apt-get >/dev/null && command -v dpkg-deb >/dev/null || return 1
        (cd "$out/debs" && apt-get download $packages >"$out/fetch.log" 2>&1) || return 1
    fi
    for deb in "$out"/debs/*.deb; do dpkg-deb -x "$deb" "$out/crates" || return 1; done
    [ -d "$hashbrown" ]
}

write_workspace() {
    cat >"$out/Cargo.toml.new" <<'W'
[workspace]
resolver = "2"
members = ["original", "../../oracle"]

[profile.release]
opt-level = 2
debug-assertions = true
overflow-checks = true

[profile.fast]
inherits = "release"
opt-level = 3
debug-assertions = false
overflow-checks = false
W
    copy "$out/Cargo.toml.new" "$out/Cargo.toml"
    if [ -n "$crates" ]; then
        printf '[source.crates-io]\nreplace-with = "unpacked"\n\n[source.unpacked]\ndirectory = "%s"\n' "$crates"
    fi >"$out/cargo-config.toml"
}

mkdir -p "$out" || fail "cannot write $out"
copy_original
crates=${CRATES:-}
offline=--offline
if [ -z "$crates" ]; then
    if fetch_crates; then
        crates=$out/crates/usr/share/cargo/registry
    else
        echo "oracle/build.sh: no Debian package of hashbrown 0.12.3 to be had (see $out/fetch.log; 'apt-get update' may be wanted first); trying crates.io" >&2
        offline=
    fi
fi
write_workspace
linked=
[ -z "${LINKED:-}" ] || linked="--features linked"
cargo build -q $offline $linked --config "$out/cargo-config.toml" --manifest-path "$out/Cargo.toml" -p oracle --profile "$profile" \
    --target-dir "$out/build" >&2 ||
    fail "the build failed. If a crate is missing: put the .deb files of these packages (Debian 12) into $out/debs, or name a folder
made by 'cargo vendor' with CRATES=FOLDER:
$packages"
echo "$out/build/$profile/oracle"
