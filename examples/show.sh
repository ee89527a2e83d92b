#!/usr/bin/env bash
# Builds the program, which proves every crate under it first, and shows the greenhouse list.
set -eu
cd "$(dirname "$0")/.."
log=$(mktemp)
answers=$(mktemp)
trap 'rm -f "$log" "$answers"' EXIT
(cd crates/book_lines && rt run < stdin > "$answers" 2> "$log") || { tail -n 20 "$log"; exit 1; }
echo "The greenhouse list: 2678 puts and 1270 takes. Key 1 holds 1280 of 1408 live readings."
echo "The published deletions answer for key 1:"
echo "  $(bash examples/greenhouse.sh | awk -f examples/published.awk)"
echo "book_lines answers for key 1 (key, low, high), and what it then holds:"
head -n "${1:-12}" "$answers" | sed 's/^/  /'
