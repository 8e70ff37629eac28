#!/usr/bin/env bash
# Nanoseconds for each of 1,000 pieces of two rows that are shipped to two copies, over a quiet net and over a seeded
# one that loses about one letter in eight, repeats as many and turns their order. One thread ships, and waits for nothing,
# so that on a machine with nothing else running the clock's time is the processor's. Each is the best phase of so many
# runs of so many phases: the first of a run takes its memory from the system.
# Words: how many runs, pieces and phases. PROGRAM is the program, where it is built already.
set -euo pipefail
cd "$(dirname "$0")/.."
. bench/program.bash
runs=${1:-5}
pieces=${2:-1000}
phases=${3:-50}
program=${PROGRAM:-$(built ship)}

for _ in $(seq "$runs"); do
    "$program" "$pieces" "$phases" 2>&1 >/dev/null
done | awk '
    { name = $2; if (!(name in best)) order[++count] = name; if (!(name in best) || $1 < best[name]) best[name] = $1 }
    END { for (i = 1; i <= count; i++) printf "%-8s %8d\n", order[i], best[order[i]] }'
