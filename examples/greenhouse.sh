#!/usr/bin/env bash
# The greenhouse list: key 1 is the common temperature, and 127 other keys come, are retracted while readings still
# arrive, and make key 1 lose its place. Prints the lines for book_lines, with a question for key 1 at the end.
set -eu
width=128
times=10
echo "width $width"
repeat() { for ((n = 0; n < times; n++)); do echo "$1 $2"; done; }
for ((key = 1; key <= width; key++)); do repeat + "$key"; done
new=$((width + 1))
for ((key = 2; key <= width; key++)); do
    echo "+ $new"
    new=$((new + 1))
    repeat - "$key"
    repeat + 1
done
echo "+ $new"
echo "? 1"
