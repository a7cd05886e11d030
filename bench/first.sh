#!/usr/bin/env bash
# Seconds and peak memory of the built program on streams of 100,000 and 1,000,000 rows `1,x`, which it outputs unchanged.
set -euo pipefail
top="$(cd "$(dirname "${BASH_SOURCE[0]}")/.." && pwd)"
folder="$(mktemp -d)"
trap 'rm -rf "$folder"' EXIT
cd "$folder"
cp "$top/examples/first/s" s
for rows in 100000 1000000; do
  seq "$rows" | sed 's/.*/1,x/' > in
  python3 "$top/bench/measure.py" "$top/scope" "$rows rows"
  cmp -s in out || { echo "the output differs" >&2; exit 1; }
done
