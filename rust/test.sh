#!/bin/sh
# rust/test.sh: builds the archive, the Rust crate, the C examples and all their tests, and runs them, one line a step. Needs the Rattle kit (`rt`), cargo, gcc, g++ and
# valgrind. All that is built goes to target/. With FERIGULAN_LIB, a folder that has liblattice_c.a, that archive is taken, and none is built.
top=$(cd "$(dirname "$0")/.." && pwd) || exit 2
cd "$top" || exit 2
build=$top/target/rust
logs=$top/target/rust-test
log=$logs/log
mkdir -p "$logs" || exit 2
steps=0

# fails WHAT: says which step failed, and shows what it printed.
fails() {
    echo "failed"
    sed 's/^/    /' "$log"
    echo "rust/test.sh: step $((steps + 1)) failed: $1" >&2
    exit 1
}

# How many tests the step has passed, if it was one of tests.
tests_passed() {
    awk '/^test result: ok/ { n += $4 } END { if (n) printf ", %d tests", n }' "$log"
}

# step WHAT COMMAND..: runs a command, and shows its output only if it fails.
step() {
    what=$1
    shift
    printf '%2d. %s .. ' $((steps + 1)) "$what"
    start=$(date +%s)
    "$@" >"$log" 2>&1 </dev/null || fails "$what"
    steps=$((steps + 1))
    echo "ok$(tests_passed), $(($(date +%s) - start)) s"
}

# needs PROGRAM PACKAGE
needs() {
    command -v "$1" >/dev/null || { echo "rust/test.sh: $1 is not installed; it is in $2" >&2; exit 2; }
}

needs cargo "Rust 1.84 or later (rustup.rs)"
needs gcc "Debian's package gcc"
needs g++ "Debian's package g++"
needs nm "Debian's package binutils"
needs valgrind "Debian's package valgrind"

# ---- the archive

if [ -n "${FERIGULAN_LIB:-}" ]; then
    given=$FERIGULAN_LIB
    FERIGULAN_LIB=$(cd "$given" 2>/dev/null && pwd) || { echo "rust/test.sh: FERIGULAN_LIB names no folder: $given" >&2; exit 2; }
    echo " 0. no archive is built: FERIGULAN_LIB names $FERIGULAN_LIB"
else
    needs rt "the Rattle kit"
    FERIGULAN_LIB=$top/target/staticlib
    # this takes some minutes where it is not built yet, so its lines are shown as they come
    echo " 1. the archive, with its proofs: sh archive.sh lattice_c"
    { sh archive.sh lattice_c 2>&1; echo $? >"$logs/status"; } | tee "$log" | sed 's/^/    /'
    [ "$(cat "$logs/status")" = 0 ] || { echo "rust/test.sh: step 1 failed: the archive was not built" >&2; exit 1; }
    steps=1
fi
export FERIGULAN_LIB
archive=$FERIGULAN_LIB/liblattice_c.a

# ---- the crate

RUSTFLAGS="-D warnings"
RUSTDOCFLAGS="-D warnings"
export RUSTFLAGS RUSTDOCFLAGS

cargo_in() {
    action=$1
    shift
    cargo "$action" --offline --manifest-path "$top/rust/Cargo.toml" --target-dir "$build" "$@"
}

# same EXPECTED COMMAND..: runs a command, whose output has to be that file's.
same() {
    expected=$1
    shift
    "$@" >"$logs/output" || return 1
    diff "$expected" "$logs/output" >"$logs/difference" && return 0
    echo "the output is not that of $expected (<):"
    head -20 "$logs/difference"
    return 1
}

step "the crate, its programs, examples and tests, without a warning" cargo_in build --all-targets
step "the crate's tests" cargo_in test --all-targets
step "the examples in its documentation" cargo_in test --doc
step "its documentation, without a warning" cargo_in doc --no-deps
step "rust/examples/merge.rs prints what it should" same rust/examples/merge.out "$build/debug/examples/merge"

# A user without std and without an allocator. Without --gc-sections gcc asks for the unwinder's function, which no code calls.
no_std() {
    cargo build --offline --manifest-path "$top/rust/tests/no_std/Cargo.toml" --target-dir "$build/no_std" &&
        gcc "$build/no_std/debug/libno_std.a" -Wl,--gc-sections -o "$build/no_std/user" && "$build/no_std/user"
}
step "a program without std links and runs" no_std

# ---- C and C++

in_c() { gcc -std=c99 -Wall -Wextra -pedantic -Werror -I include "$@"; }
in_cpp() { g++ -x c++ -Wall -Wextra -pedantic -Werror -I include "$@"; }
header_alone() {
    echo '#include "ferigulan.h"' >"$logs/alone.c"
    # the length of the longest file, as the crate has it
    echo 'typedef char longest_file[FERIGULAN_LONGEST_FILE == 8388127 ? 1 : -1];' >>"$logs/alone.c"
    in_c -fsyntax-only "$logs/alone.c" && in_cpp -fsyntax-only "$logs/alone.c"
}
c_example() { in_c "examples/$1.c" "$archive" -o "$build/$1_c" && same "examples/$1.out" "$build/$1_c"; }
cpp_example() { in_cpp "examples/$1.c" -x none "$archive" -o "$build/$1_cpp" && same "examples/$1.out" "$build/$1_cpp"; }
step "include/ferigulan.h stands alone, in C99 and in C++" header_alone
for example in merge catalogue; do
    step "examples/$example.c in C99 prints what it should" c_example "$example"
    step "examples/$example.c in C++ prints what it should" cpp_example "$example"
done

# ---- the scripts of tests/, which the gate runs through `calls`

scripts() { same crates/calls/stdout "$build/debug/ferigulan" run --plain crates/calls/stdin; }
step "the scripts of tests/ print through the crate what they print through calls" scripts

# ---- memory and stack

# The stacks for the longer lists take too long here; and a process that is to end by a signal is none for valgrind.
under_valgrind() {
    CARGO_TARGET_X86_64_UNKNOWN_LINUX_GNU_RUNNER="valgrind -q --error-exitcode=1" cargo_in test --test every_call --test values --test opened --test reading --test find_entry --test catalogue --test stack -- \
        --skip 65_536 --skip 1_048_576 --skip largest_file --skip long_files --skip ends_the_process
}
step "the tests under valgrind" under_valgrind
step "the deepest calls, each with the stack that README.md states" cargo_in test --release --test stack

echo "rust/test.sh: $steps steps passed"
