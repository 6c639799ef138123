#!/bin/sh
# Containment and joining of lists of 64, 128 and 256 ranges, in time per call: sh bench/ranges.sh. It proves and builds
# the program in a folder of its own, which takes some minutes where nothing is proved yet. It is no part of the gate.
set -eu
here=$(cd "$(dirname "$0")" && pwd)
top=$(dirname "$here")
work=$(mktemp -d)
trap 'rm -rf "$work"' EXIT
mkdir -p "$work/crates/bench_ranges/src"
# the sources alone, without what checks left beside them
(cd "$top/crates" && tar -cf - --exclude=out fault points ranges) | tar -xf - -C "$work/crates"
cp "$here/ranges/main.rt.txt" "$work/crates/bench_ranges/src/main.rt"
printf 'fault:\npoints:\nranges: points fault\nbench_ranges: points ranges fault anyhow\n' > "$work/crates.txt"
cd "$work"
git init -q .
# what the run that follows the proof prints is not counted: only the program is wanted
(cd crates/bench_ranges && rt run) > log 2>&1 || { tail -20 log; exit 1; }
for _ in 1 2 3; do crates/bench_ranges/out/bench_ranges; done
