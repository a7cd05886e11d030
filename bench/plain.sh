#!/usr/bin/env bash
# Seconds and peak memory of the built program on 10,000 rows in groups and in order, by the plain program, which the planner is to replace.
set -euo pipefail
top="$(cd "$(dirname "${BASH_SOURCE[0]}")/.." && pwd)"
folder="$(mktemp -d)"
trap 'rm -rf "$folder"' EXIT
cd "$folder"
seq 10000 | awk '{ print "k" $1 % 100 "," $1 }' > in
cat > s <<'SCRIPT'
e = EXTRACT k, v:int FROM "in" USING TextExtractor;
g = SELECT k, COUNT(*) AS n, SUM(v) AS s FROM e GROUP BY k;
t = SELECT k, n, s FROM g ORDER BY s DESC;
OUTPUT t TO "out";
SCRIPT
python3 "$top/bench/measure.py" "$top/scope" "10000 rows in 100 groups"
