#!/usr/bin/env bash
# Seconds and peak memory of the built program on scripts of about 256 KiB and just below 1 MiB, the longest that there may
# be: many SELECTs, the last with the deepest brackets. Such a script is in the grammar, and has more
# statements than may bind.
set -euo pipefail
top="$(cd "$(dirname "${BASH_SOURCE[0]}")/.." && pwd)"
folder="$(mktemp -d)"
trap 'rm -rf "$folder"' EXIT
cd "$folder"
for size in 262144 1048576; do
  python3 - "$size" > s <<'PY'
import sys

lines = ['e = EXTRACT k, v:int FROM "in" USING TextExtractor;']
last = "SELECT v FROM e WHERE " + "(" * 98 + "v" + ")" * 98 + " >= 0;"
room = int(sys.argv[1]) - len(lines[0]) - len(last) - 2
while True:
    n = len(lines)
    line = f'g{n} = SELECT k, v * 2 + {n} AS w, (k == "x" || !(v < {n})) AS t FROM e WHERE v >= {n} && k != "y";'
    room -= len(line) + 1
    if room < 0:
        break
    lines.append(line)
print("\n".join(lines + [last]))
PY
  python3 "$top/bench/measure.py" "$top/scope" "$(wc -c < s) bytes"
done
