#!/bin/bash
# Compares what the program at $1 prints and writes for the examples in crates/settle/data with
# what is stored there.

set -eo pipefail
program=$(realpath "$1")
cd "$(dirname "$0")/../crates/settle/data"
work=$(mktemp -d)
trap 'rm -rf "$work"' EXIT

"$program" run example.journal | diff - ../stdout
"$program" run --json example.journal | diff - example.json
"$program" prices office.txt sheet.bin | diff - prices.out
"$program" prices --json office.txt sheet.bin | diff - prices.json
"$program" correct office.txt 2026-12-30 2027-01-04 99925.00 | diff - correct.out
for sheet in sheet fortnight; do
    "$program" sheet make $sheet.txt "$work/$sheet.bin" > "$work/print"
    cmp "$work/$sheet.bin" $sheet.bin
done
for journal in edges fortnight; do
    "$program" run $journal.journal | diff - $journal.out
    "$program" run --json $journal.journal | diff - $journal.json
done
mkdir "$work/csv"
"$program" run --csv "$work/csv" example.journal > "$work/print"
diff -r example-csv "$work/csv"
echo "$program prints what is stored"
