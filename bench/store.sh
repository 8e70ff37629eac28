#!/usr/bin/env bash
# Stores on real files, on a RAM disk and on a disk: bank transfers in epochs of 1, 100 and 1,000 lines, and bookings with
# texts; then a store that keeps all those requests opened, verified, dumped and compacted; one of as many rows; and the same
# transfers in SQLite, with a transaction for each epoch. Each figure is of the best of so many runs, each on a new store. One worker runs them on one
# partition; bench/workers.sh measures several of both.
# Words: how many lines, how many runs. COCO is the program, RAM and DISK are the folders; where a batch is synced for
# real, at most EPOCHS batches are taken.
set -euo pipefail
cd "$(dirname "$0")/.."
lines=${1:-1000000}
runs=${2:-3}
program=${COCO:-$PWD/crates/coco/out/coco}
ram=$(mktemp -d -p "${RAM:-/dev/shm}")
disk=$(mktemp -d -p "${DISK:-/var/tmp}")
trap 'rm -rf "$ram" "$disk"' EXIT
. bench/measure.bash

# moves COUNT: accounts are opened, and then money moves; of ten transfers one is between an account and itself.
moves() {
    awk -v count="$1" 'BEGIN {
        srand(1)
        for (id = 1; id <= count; id++) {
            if (id <= 1000) { printf "{\"args\":[%d,1000000],\"call\":\"open\",\"id\":%d}\n", id, id; continue }
            from = int(rand() * 1000) + 1
            to = id % 10 ? from % 1000 + 1 : from
            printf "{\"args\":[%d,%d,%d],\"call\":\"move\",\"id\":%d}\n", from, to, int(rand() * 100), id
        }
    }'
}

# bookings COUNT: a seat is booked, looked at and given back, by guests with names of some thirty bytes.
bookings() {
    awk -v count="$1" 'BEGIN {
        for (id = 1; id <= count; id++) {
            turn = int((id - 1) / 3)
            seat = turn % 200 + 1
            guest = sprintf("guest %d of the long name", turn)
            if (id % 3 == 1) printf "{\"args\":[%d,\"%s\"],\"call\":\"book\",\"id\":%d}\n", seat, guest, id
            else if (id % 3 == 2) printf "{\"args\":[%d],\"call\":\"guest\",\"id\":%d}\n", seat, id
            else printf "{\"args\":[%d,\"%s\"],\"call\":\"free\",\"id\":%d}\n", seat, guest, id
        }
    }'
}

# ran NAME FOLDER PROCEDURES EPOCH COUNT: so many of the lines.
ran() {
    local clock processor memory
    head -n "$5" "$ram/lines" >"$ram/input"
    read -r clock processor memory < <(measured "$runs" bash -c "$fresh" - "$2/store" "$program" "$3" \
        -- "$program" "$2/store" run --epoch "$4")
    row "$1" "$5" "$clock" "$processor" "$memory"
}

# told NAME WORD: what a command costs a kept request, on the store of the last run in the RAM disk.
told() {
    local clock processor memory
    : >"$ram/input"
    read -r clock processor memory < <(measured "$runs" -- "$program" "$ram/store" "$2")
    row "$1" "$lines" "$clock" "$processor" "$memory"
}

# small: what it takes to make the store of the last run small, and to open it then.
small() {
    local clock processor memory
    : >"$ram/input"
    read -r clock processor memory < <(measured "$runs" bash -c 'rm -rf "$2" && cp -r "$1" "$2"' - "$ram/store" "$ram/small" \
        -- "$program" "$ram/small" compact)
    row '  compact' "$lines" "$clock" "$processor" "$memory"
    read -r clock processor memory < <(measured "$runs" -- "$program" "$ram/small" run)
    row '  opening the compacted store' "$lines" "$clock" "$processor" "$memory"
}

# rows: a store with so many rows of whole numbers, which keeps the replies of one epoch alone and was made small; opened,
# dumped, and an epoch of 1,000 lines more over its rows, opening included.
rows() {
    local clock processor memory
    awk -v count="$lines" 'BEGIN { for (i = 1; i <= count; i++) printf "{\"args\":[%d,%d],\"call\":\"put\",\"id\":%d}\n", i, i, i }' >"$ram/input"
    measured 1 bash -c "$fresh" - "$ram/store" "$program" /dev/null -- "$program" "$ram/store" run --epoch 1000 >/dev/null
    "$program" "$ram/store" migrate --keep 1 </dev/null
    "$program" "$ram/store" compact </dev/null
    told '  rows, opening' run
    told '  rows, dump' dump
    awk -v count="$lines" 'BEGIN { for (i = 1; i <= 1000; i++) printf "{\"args\":[%d,1],\"call\":\"add\",\"id\":%d}\n", i * 7 % count + 1, count + i }' >"$ram/input"
    read -r clock processor memory < <(measured "$runs" bash -c 'rm -rf "$2" && cp -r "$1" "$2"' - "$ram/store" "$ram/small" \
        -- "$program" "$ram/small" run --epoch 1000)
    row '  rows, an epoch of 1,000 more' "$lines" "$clock" "$processor" "$memory"
}

few=${EPOCHS:-500}
printf '%-34s %9s %10s %10s %9s\n' '' requests 'a second' 'us each' MiB
moves "$lines" >"$ram/lines"
for epoch in 1 100 1000; do
    ran "transfers, RAM disk, epochs of $epoch" "$ram" bench/bank.coco "$epoch" "$lines"
done
ran '  the first tenth' "$ram" bench/bank.coco 1000 $((lines / 10))
ran '  the first nine tenths' "$ram" bench/bank.coco 1000 $((lines / 10 * 9))
ran '  all once more' "$ram" bench/bank.coco 1000 "$lines"
told '  opening' run
told '  verify' verify
told '  dump' dump
small
rows
for epoch in 1 100 1000; do
    ran "transfers, disk, epochs of $epoch" "$disk" bench/bank.coco "$epoch" $((lines < few * epoch ? lines : few * epoch))
done
for epoch in 1 100 1000; do
    for folder in "$ram" "$disk"; do
        count=$lines name="RAM disk"
        [ "$folder" = "$disk" ] && count=$((lines < few * epoch ? lines : few * epoch)) name=disk
        head -n "$count" "$ram/lines" >"$ram/input"
        read -r clock processor memory < <(measured 1 rm -f "$folder/base" -- python3 bench/store_sqlite.py "$folder/base" "$epoch")
        row "SQLite, $name, of $epoch" "$count" "$clock" "$processor" "$memory"
    done
done
bookings "$lines" >"$ram/lines"
for epoch in 1 1000; do
    ran "bookings, RAM disk, epochs of $epoch" "$ram" examples/booking/procedures.coco "$epoch" "$lines"
done
told '  opening' run
told '  verify' verify
told '  dump' dump
