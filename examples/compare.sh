#!/usr/bin/env bash
# Runs the program on every list of this folder, and the published deletions beside it, and compares with what is stored;
# says nothing where all is the same. The program is built here without its proof, which is the gate's.
set -eu
cd "$(dirname "$0")/.."
differs() { echo "differs: $1" >&2; exit 1; }
work=$(mktemp -d)
trap 'rm -rf "$work"' EXIT
mkdir "$work/lists"
for list in examples/*.in; do
    name=$(basename "$list" .in)
    cp "$list" "$work/lists/$name"
    cp "${list%.in}.out" "$work/lists/$name.stdout"
done
(cd crates/book_lines && rt try --cases "$work/lists") > "$work/said" 2>&1 || { cat "$work/said" >&2; differs "a list of examples/"; }
diff crates/book_lines/stdin <(bash examples/greenhouse.sh) || differs "the stored greenhouse list"
diff examples/published.out <(bash examples/published.sh) || differs "examples/published.out"
