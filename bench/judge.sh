#!/bin/sh
# A million judgements on a list of 4,096 payloads, beside a plain walk over the same data in Rust: sh bench/judge.sh.
# It proves and builds the program in a folder of its own, which takes some minutes where nothing is proved yet.
set -eu
here=$(cd "$(dirname "$0")" && pwd)
top=$(dirname "$here")
work=$(mktemp -d)
trap 'rm -rf "$work"' EXIT
mkdir -p "$work/crates/bench_judge/src"
# the sources alone, without what checks left beside them
(cd "$top/crates" && tar -cf - --exclude=out fault family payload verdict) | tar -xf - -C "$work/crates"
cp "$here/judge/main.rt.txt" "$work/crates/bench_judge/src/main.rt"
printf 'fault:\nfamily:\npayload: family\nverdict: family payload fault\nbench_judge: payload verdict anyhow\n' > "$work/crates.txt"
cd "$work"
git init -q .
# what the run that follows the proof prints is not counted: only the program is wanted
(cd crates/bench_judge && rt run) > log 2>&1 || { tail -40 log; exit 1; }
rustc -O -o walk "$here/judge/walk.rs"
for _ in 1 2 3; do crates/bench_judge/out/bench_judge; ./walk; done
