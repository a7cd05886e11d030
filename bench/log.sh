#!/usr/bin/env bash
# Seconds and peak memory of the built program on logs of 100,000 and 1,000,000 records, read by LogExtractor and filtered.
set -euo pipefail
top="$(cd "$(dirname "${BASH_SOURCE[0]}")/.." && pwd)"
folder="$(mktemp -d)"
trap 'rm -rf "$folder"' EXIT
cd "$folder"
cat > s <<'SCRIPT'
e = EXTRACT user, query, clicks:int FROM "log" USING LogExtractor;
f = SELECT query, clicks + 1 AS c FROM e WHERE clicks >= 3;
OUTPUT f TO "out";
SCRIPT
for rows in 100000 1000000; do
  seq "$rows" | awk '{ print "u" $1 % 1000 "\tq" $1 % 5000 "\t" $1 % 10 }' > log
  python3 "$top/bench/measure.py" "$top/scope" "$rows records"
done
