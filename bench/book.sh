#!/bin/sh
# Every question that a book of 2,000 records and 16 MiB answers, by its index and by the walk, beside one pass over its
# octets: sh bench/book.sh. It proves and builds the program in a folder of its own, which takes some minutes where nothing
# is proved yet.
set -eu
here=$(cd "$(dirname "$0")" && pwd)
top=$(dirname "$here")
work=$(mktemp -d)
trap 'rm -rf "$work"' EXIT
mkdir -p "$work/crates/bench_book/src"
# the sources alone, without what checks left beside them
(cd "$top/crates" && tar -cf - --exclude=out oracle record book book_index) | tar -xf - -C "$work/crates"
cp "$here/book/main.rt.txt" "$work/crates/bench_book/src/main.rt"
printf 'oracle:\nrecord: oracle\nbook: oracle record\nbook_index: oracle record book\nbench_book: oracle record book book_index anyhow\n' > "$work/crates.txt"
cd "$work"
git init -q .
python3 "$here/book/make_book.py" book.bin
# what the run that follows the proof prints is not counted: only the program is wanted
(cd crates/bench_book && rt run -- "$work/book.bin") > log 2>&1 || { tail -20 log; exit 1; }
for _ in 1 2 3; do crates/bench_book/out/bench_book book.bin; done
