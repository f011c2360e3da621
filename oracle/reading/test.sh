#!/bin/sh
# test.sh [ARGUMENTS]: runs the tests of the package `reading`; the arguments go to `cargo test`. Everything that is built goes into target/reading.
# CASES names a folder of scripts with their answers (twelve.txt, limits.txt, refusals.txt, slip-01.txt, slip-02.txt, slip-03.txt), to be run too.
here=$(cd "$(dirname "$0")" && pwd) || exit 2
out=$(cd "$here/../.." && pwd)/target/reading
command -v cargo >/dev/null || { echo "oracle/reading/test.sh: cargo is needed, and not on the path" >&2; exit 2; }
if [ -n "${CASES:-}" ]; then
    CASES=$(cd "$CASES" && pwd) || { echo "oracle/reading/test.sh: CASES names no folder" >&2; exit 2; }
    export CASES
else
    echo "oracle/reading/test.sh: CASES names no folder of scripts, so none is run" >&2
fi
mkdir -p "$out" || exit 2
cat >"$out/Cargo.toml" <<'W' || exit 2
[workspace]
resolver = "2"
members = ["../../oracle/reading"]

[profile.release]
debug-assertions = true
overflow-checks = true
W
exec cargo test --offline --release --manifest-path "$out/Cargo.toml" --target-dir "$out/build" "$@"
