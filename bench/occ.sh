#!/usr/bin/env bash
# Nanoseconds of one attempt that nothing disturbs, with its steps at shards in memory: a bank transfer on one shard and
# on two, and the built-in put, add and get. Each is the best of so many runs of so many attempts. Before that the two
# calls of each line of bench/occ/stdin are tried in all 12,870 orders of eight turns each: what they come to has to be
# that of a serial run, as bench/occ/stdout says. PROGRAM is the program, where it is built already.
set -euo pipefail
cd "$(dirname "$0")/.."
. bench/program.bash
runs=${1:-5}
times=${2:-100000}
program=${PROGRAM:-$(built occ)}
work=$(mktemp -d)
trap 'rm -rf "$work"' EXIT

"$program" <bench/occ/stdin | diff bench/occ/stdout -

sed '/^==$/,$d' bench/occ/stdin >"$work/input"
cat >>"$work/input" <<'LINES'
==
move | 1 | open 1 100; open 2 0 | move 1 2 0 | again
move on two | 2 | open 1 100; open 2 0 | move 1 2 0 | again
put | 1 | put 5 70 | put 5 70 | again
add | 1 | put 5 70 | add 5 0 | again
get | 1 | put 5 70 | get 5 | again
LINES

for _ in $(seq "$runs"); do
    "$program" "$times" <"$work/input" 2>&1 >/dev/null
done | awk '
    { time = $1; sub(/^[0-9]+ /, ""); if (!($0 in best)) order[++count] = $0; if (!($0 in best) || time < best[$0]) best[$0] = time }
    END { for (i = 1; i <= count; i++) printf "%-12s %8d\n", order[i], best[order[i]] }'
