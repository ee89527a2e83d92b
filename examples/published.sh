#!/usr/bin/env bash
# What the published deletions estimate on each list, beside the live count.
set -eu
cd "$(dirname "$0")"
for list in two four eight; do echo "$list: $(awk -f published.awk "$list.in")"; done
echo "greenhouse: $(bash greenhouse.sh | awk -f published.awk)"
