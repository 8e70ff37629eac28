#!/usr/bin/env bash
# Bank transfers in stores of one node and of several, on a RAM disk, by one worker: epochs of 1,000 lines and of one. The
# last row of each is of three nodes that each hold the whole: two copies of three partitions. And the memory of stores of
# one node and of three behind many epochs of one line, whose requests aren't kept.
# Words: how many lines (of epochs of one a twentieth), how many runs. COCO is the program, RAM the folder.
set -euo pipefail
cd "$(dirname "$0")/.."
lines=${1:-300000}
runs=${2:-3}
program=${COCO:-$PWD/crates/coco/out/coco}
ram=$(mktemp -d -p "${RAM:-/dev/shm}")
trap 'rm -rf "$ram"' EXIT
. bench/measure.bash

# moves COUNT: a thousand accounts are opened, and then money moves among them.
moves() {
    awk -v count="$1" 'BEGIN {
        srand(1)
        for (id = 1; id <= count; id++) {
            if (id <= 1000) { printf "{\"args\":[%d,1000000],\"call\":\"open\",\"id\":%d}\n", id, id; continue }
            from = int(rand() * 1000) + 1
            to = (from + int(rand() * 999)) % 1000 + 1
            printf "{\"args\":[%d,%d,%d],\"call\":\"move\",\"id\":%d}\n", from, to, int(rand() * 100) + 1, id
        }
    }'
}

# with NAME EPOCH COUNT WORD..: a row, of the lines of $ram/input on new stores that are made with these words.
with() {
    row "$1, epochs of $2" "$3" $(measured "$runs" bash -c "$fresh" - "$ram/store" "$program" bench/bank.coco "${@:4}" \
        -- "$program" "$ram/store" run --epoch "$2" --workers 1)
}

# forgets NAME COUNT WORD..: so many epochs of one line, of which the last ten are kept.
forgets() {
    local forgetful='rm -rf "$1" && "$2" "$1" init "${@:4}" <"$3" && "$2" "$1" migrate --keep 10'
    row "$1, ten epochs kept" "$2" $(measured 1 bash -c "$forgetful" - "$ram/store" "$program" bench/bank.coco "${@:3}" \
        -- "$program" "$ram/store" run --epoch 1 --workers 1)
}

printf '%-34s %9s %10s %10s %9s\n' '' requests 'a second' 'us each' MiB
for epoch in 1000 1; do
    count=$((epoch == 1 ? lines / 20 : lines))
    moves "$count" >"$ram/input"
    with 'one node' "$epoch" "$count"
    with 'one node, 3 partitions' "$epoch" "$count" --partitions 3
    with 'three nodes' "$epoch" "$count" --nodes 3 --partitions 3
    with 'three nodes, two copies' "$epoch" "$count" --nodes 3 --partitions 3 --copies 2
done
for count in $((lines / 20)) $((lines / 4)); do
    moves "$count" >"$ram/input"
    forgets 'one node' "$count"
    forgets 'three nodes, two copies' "$count" --nodes 3 --partitions 3 --copies 2
done
