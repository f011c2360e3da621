#!/bin/sh
# plot.sh [FIGURES [FOLDER]]: makes docs/bench-*.svg and the tables of docs/BENCHMARKS.md from the figures that growth.sh wrote, target/bench-growth.tsv. It needs rustc.
cd "$(dirname "$0")/.." || exit 2
rustc --edition 2021 -O -o target/bench-plot bench/plot/main.rs || exit 1
folder=${2:-docs}
target/bench-plot "${1:-target/bench-growth.tsv}" "$folder" || exit 1
echo "plot.sh: wrote $folder/BENCHMARKS.md and $folder/bench-*.svg" >&2
