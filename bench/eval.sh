#!/usr/bin/env bash
# Nanoseconds of one call on a map in memory, each run so often: a bank transfer, the built-in put, add and get, and a
# loop of 1,024 turns. Each is the best of so many runs. PROGRAM is the program, where it is built already.
set -euo pipefail
cd "$(dirname "$0")/.."
. bench/program.bash
runs=${1:-5}
times=${2:-100000}
program=${PROGRAM:-$(built eval)}
work=$(mktemp -d)
trap 'rm -rf "$work"' EXIT

cat bench/bank.coco bench/turns.coco >"$work/input"
printf '==\nopen 1 100\nopen 2 0\nput 5 70\nmove 1 2 0\nput 5 70\nadd 5 0\nget 5\nturns 3\n' >>"$work/input"

for _ in $(seq "$runs"); do
    "$program" "$times" <"$work/input" 2>&1 >/dev/null
done | awk '
    { name = $2; if (!(name in best)) order[++count] = name; if (!(name in best) || $1 < best[name]) best[name] = $1 }
    END { for (i = 1; i <= count; i++) printf "%-8s %8d\n", order[i], best[order[i]] }'
