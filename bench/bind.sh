#!/usr/bin/env bash
# Seconds and peak memory of scope_show, which parses and binds a script and prints its Dag: a script of 63 statements whose trees have 128
# columns each, and the same with names so long that the script has about 1 MiB. The gate builds scope_show.
set -euo pipefail
top="$(cd "$(dirname "${BASH_SOURCE[0]}")/.." && pwd)"
show="$top/crates/scope_show/out/scope_show"
[ -x "$show" ] || { echo "bind.sh: scope_show isn't built: run rt build in crates/scope_show first" >&2; exit 1; }
folder="$(mktemp -d)"
trap 'rm -rf "$folder"' EXIT
cd "$folder"
for length in 4 250; do
  python3 - "$length" > s <<'PY'
import sys

columns = [f"c{i}".ljust(int(sys.argv[1]), "x") for i in range(64)]
lines = [f'e = EXTRACT {", ".join(columns)} FROM "in" USING TextExtractor;']
for n in range(31):
    items = ", ".join(f"{c} AS {c[1:].rjust(len(c), 'd')}" for c in columns)
    lines += [f"s{n} = SELECT {items} FROM e;", f'OUTPUT s{n} TO "out{n}";']
print("\n".join(lines))
PY
  python3 "$top/bench/measure.py" "$show" "$(wc -c < s) bytes" bound s
done
