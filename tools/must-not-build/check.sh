#!/bin/bash
# Two programs must not build: one that trades on a ticket already closed, and one that lets a slip go.
# Each is put into a copy of the repository as a crate over the book, and the compiler's errors must be
# those stored beside it and no others.
set -eo pipefail
here=$(cd "$(dirname "$0")" && pwd)
root=$(cd "$here/../.." && pwd)
copy=$(mktemp -d)
trap 'rm -rf "$copy"' EXIT
mkdir "$copy/crates"
cp "$root/crates.txt" "$copy/"
for crate in dates rows calendar interest rates amounts sheet correction pricing refusal model book; do
    cp -r "$root/crates/$crate" "$copy/crates/"
done
grep -Ev '^(examples|desk|settle|measure|call_tests)\b' "$root/crates.txt" > "$copy/crates.txt"
for program in trades_after_close lets_a_slip_go; do
    mkdir -p "$copy/crates/$program/src"
    cp "$here/$program.txt" "$copy/crates/$program/src/lib.rt"
    echo "$program: calendar rates model book" >> "$copy/crates.txt"
    if (cd "$copy/crates/$program" && rt check) > "$copy/$program.log" 2>&1; then
        echo "$program was built" >&2
        exit 1
    fi
    grep -E '^src/lib.rt:.*error' "$copy/$program.log" | sed -E 's/: (help|note):.*//' > "$copy/$program.errors" || true
    if ! diff "$here/$program.errors" "$copy/$program.errors"; then
        tail -30 "$copy/$program.log" >&2
        exit 1
    fi
    echo "$program does not build: $(cat "$copy/$program.errors")"
done
