#!/usr/bin/env bash
# Reads of 1,000 rows through journaled shards, each thread on all shards: steps per second by 1, 2 and 4 threads,
# on one shard and on four with the rows in their order, and on sixteen with each thread in a random order of its
# own; and nanoseconds of a step by one thread beside those of a bare shard's read. Each is the best of so many
# runs with 20 rounds each. A lock begins with room for all of its steps. Memory that a round gives back is kept
# for the next, so that the cost of new pages isn't measured. PROGRAM is the program, where it is built already, or
# another one, such as lock_plain.rs.
set -eu
cd "$(dirname "$0")/.."
. bench/program.bash
runs=${1:-5}
steps=${2:-10000}
program=${PROGRAM:-$(built lock)}
export MALLOC_ARENA_MAX=1 MALLOC_MMAP_THRESHOLD_=4294967296 MALLOC_TRIM_THRESHOLD_=17179869184

for _ in $(seq "$runs"); do
    "$program" "$steps" 20 2>&1 >/dev/null
done | awk -v steps="$steps" '
    { name = $1; if (NF == 3) name = $1 " " $2; if (!(name in best) || $NF < best[name]) best[name] = $NF }
    END {
        printf "steps per second       one shard  four shards  sixteen, random\n"
        for (threads = 1; threads <= 4; threads *= 2)
            printf "%d thread%s          %12.0f %12.0f %16.0f\n", threads, threads == 1 ? " " : "s",
                steps * 1e9 / best["1 " threads], steps * 1e9 / best["4 " threads], steps * 1e9 / best["16 " threads]
        printf "\nfour threads to one, on sixteen shards  %.2f\n", best["16 1"] / best["16 4"]
        printf "\nnanoseconds a step, one thread\n"
        printf "read of a bare shard                 %8.0f\n", best["bare"] / steps
        printf "step of a journaled shard            %8.0f\n", best["1 1"] / steps
    }'
