#!/usr/bin/env bash
# Epochs of 1,000 lines run by 1, 2 and 4 workers over 16 partitions, on a RAM disk: bank transfers among many accounts and
# among few, reads and writes of single rows, and a procedure of 1,024 loop turns; and transfers in epochs of sixteen lines
# and of one. Each figure is of the best of so many runs, each on a new store; of the rate the middle one stands beside it.
# Words: how many lines (of the last three a twentieth), how many runs. COCO is the program, RAM the folder.
set -euo pipefail
cd "$(dirname "$0")/.."
lines=${1:-300000}
runs=${2:-3}
program=${COCO:-$PWD/crates/coco/out/coco}
ram=$(mktemp -d -p "${RAM:-/dev/shm}")
trap 'rm -rf "$ram"' EXIT
. bench/measure.bash

# moves COUNT ACCOUNTS: accounts are opened, and then money moves among them.
moves() {
    awk -v count="$1" -v accounts="$2" 'BEGIN {
        srand(1)
        for (id = 1; id <= count; id++) {
            if (id <= accounts) { printf "{\"args\":[%d,1000000],\"call\":\"open\",\"id\":%d}\n", id, id; continue }
            from = int(rand() * accounts) + 1
            to = (from + int(rand() * (accounts - 1))) % accounts + 1
            printf "{\"args\":[%d,%d,%d],\"call\":\"move\",\"id\":%d}\n", from, to, int(rand() * 100) + 1, id
        }
    }'
}

# rows COUNT: every other line reads one of 10,000 rows, and the others write one.
rows() {
    awk -v count="$1" 'BEGIN {
        srand(1)
        for (id = 1; id <= count; id++) {
            at = int(rand() * 10000)
            if (id % 2) printf "{\"args\":[%d,%d],\"call\":\"put\",\"id\":%d}\n", at, id, id
            else printf "{\"args\":[%d],\"call\":\"get\",\"id\":%d}\n", at, id
        }
    }'
}

# long COUNT: each line turns 1,024 times on a row of its own.
long() {
    awk -v count="$1" 'BEGIN { for (id = 1; id <= count; id++) printf "{\"args\":[%d],\"call\":\"turns\",\"id\":%d}\n", id % 997, id }'
}

# by NAME COUNT PROCEDURES EPOCH: the lines of $ram/input by each number of workers, in epochs of so many lines. They take
# turns, so that what else the machine does meets them alike.
by() {
    local run workers least middle processor memory
    for ((run = 0; run < runs; run++)); do
        for workers in 1 2 4; do
            printf '%s ' "$workers"
            measured 1 bash -c "$fresh" - "$ram/store" "$program" "$3" --partitions 16 \
                -- "$program" "$ram/store" run --epoch "$4" --workers "$workers"
        done
    done | summed | while read -r workers least middle processor memory; do
        awk -v name="$1, $workers workers" -v count="$2" -v least="$least" -v middle="$middle" -v processor="$processor" \
            -v memory="$memory" 'BEGIN { printf "%-34s %9d %10.0f %10.0f %10.2f %9.1f\n", name, count, count / least,
            count / middle, processor * 1e6 / count, memory / 1024 }'
    done
}

# Of the runs of each number of workers: the least and the middle time, the least of the processor's and of the memory.
summed() {
    python3 -c '
import statistics, sys
runs = {}
for line in sys.stdin:
    workers, *figures = line.split()
    runs.setdefault(workers, []).append([float(figure) for figure in figures])
for workers, figures in runs.items():
    clock, processor, memory = zip(*figures)
    print(workers, min(clock), statistics.median(clock), min(processor), min(memory))
'
}

printf '%-34s %9s %10s %10s %10s %9s\n' '' requests 'a second' 'the middle' 'us each' MiB
moves "$lines" 1000 >"$ram/input"
by 'transfers' "$lines" bench/bank.coco 1000
moves "$lines" 8 >"$ram/input"
by 'transfers among 8' "$lines" bench/bank.coco 1000
rows "$lines" >"$ram/input"
by 'reads and writes' "$lines" /dev/null 1000
long $((lines / 20)) >"$ram/input"
by '1,024 turns' $((lines / 20)) bench/turns.coco 1000
moves $((lines / 20)) 1000 >"$ram/input"
by 'transfers, by sixteens' $((lines / 20)) bench/bank.coco 16
by 'transfers, one by one' $((lines / 20)) bench/bank.coco 1
