#!/usr/bin/env bash
# Runs whose files can't grow as far as they would, and runs with little memory: each ends in its status and its line with
# a front of the answers, and a run without the limit then does the rest.
. "$(dirname "$0")/store.bash"
prepare

# within OPTION LIMIT STORE WORD..: a run under a limit of the shell. What it says goes through a pipe, which may grow.
within() {
    local option=$1 most=$2
    shift 2
    (
        ulimit "$option" "$most"
        exec "$program" "$@" <"$input" 2>&1
    ) | cat >"$work/both"
    status=${PIPESTATUS[0]}
    grep -v '^coco' "$work/both" >"$work/said"
    grep '^coco' "$work/both" >"$work/errors"
}

# stands NAME: what was said is a front of the answers, and the store is one.
stands() {
    bare "$work/said" | cmp -s - <(head -n "$(wc -l <"$work/said")" "$work/wanted") || wrong "the answers: $1"
    on "$2" verify
    ends "the verdict: $1" 0
}

# limited MOST STORE WORD..: a run whose files can have so many KiB each.
limited() {
    within -f "$@"
}

# crowded MOST STORE WORD..: a run on the small disk, of which another file leaves so many KiB.
crowded() {
    head -c $(((64 - $1) * 1024)) /dev/zero >"$disk/other"
    on "${@:2}"
}

# filled HOW STORE MOST..: a store that is made and run with no room, then with so many KiB each, and at last with enough.
filled() {
    local how=$1 store=$2 most input=/dev/null
    shift 2
    "$how" 0 "$store" init
    ends "$how, init without room" 4 'coco: disk fault'
    on "$store" run
    ends "$how, a run behind that" 7 'coco: not a store: file 0 at byte 0'
    "$how" 64 "$store" init
    ends "$how, init again" 0
    input=$work/lines
    for most; do
        "$how" "$most" "$store" run --epoch "$size"
        ends "$how, $most KiB" 4 'coco: disk fault'
        stands "$how, $most KiB" "$store"
    done
    "$how" 64 "$store" verify
    ends "$how, with room again" 0
    whole "$store"
}

# A disk of 64 KiB in memory, where one may be mounted.
small_disk() {
    disk=$work/disk
    mkdir "$disk"
    if ! mount -t tmpfs -o size=64k none "$disk" 2>"$work/errors"; then
        echo 'skipped: a small disk, since none may be mounted here'
        return
    fi
    trap 'umount "$disk"; rm -rf "$work"' EXIT
    filled crowded "$disk/full" 12 16 20
}

# tried MOST: a new store, and a run with so much memory.
tried() {
    new "$work/small"
    within -v "$1" "$work/small" run --epoch "$size"
}

# How much memory the program takes to begin at all depends on the system, so its limits are sought: from one under which
# it can't be loaded to one under which it ends.
little_memory() {
    local most=2000 ending=127 scarce=0
    until [ "$ending" -le 6 ] || [ "$most" -gt 20000 ]; do
        most=$((most + 500))
        tried "$most"
        ending=$status
    done
    most=$((most - 500)) ending=127
    until [ "$ending" -eq 0 ] || [ "$scarce" -eq 40 ] || [ "$most" -gt 20000 ]; do
        most=$((most + 20))
        tried "$most"
        ending=$status
        [ "$ending" -eq 6 ] || continue
        scarce=$((scarce + 1))
        ends "memory of $most KiB" 6 'coco: out of memory'
        stands "memory of $most KiB" "$work/small"
        whole "$work/small"
    done
    [ "$scarce" -gt 0 ] || echo 'skipped: little memory, since no limit was met here'
}

filled limited "$work/full" 1 2 3 5 8
small_disk
little_memory
ended
