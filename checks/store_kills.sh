#!/usr/bin/env bash
# Runs that are killed at random moments and started again on the same lines, until one ends: what was said before a kill
# stands, each request has its one answer, and the store is that of a run that nothing disturbed.
# Words: the program, and how many kills; without a number there are 300, which takes one or two minutes.
. "$(dirname "$0")/store.bash"
draws

size=10
lines=150
input=$work/lines
span=0
# As many lines as keep the program busy for a quarter of a second.
while [ "$span" -lt 250000 ] && [ "$failed" -eq 0 ]; do
    lines=$((lines * 2))
    adds "$lines" >"$work/lines"
    new "$work/calm" --partitions 4
    began=${EPOCHREALTIME/[.,]/}
    on "$work/calm" run --epoch "$size"
    ends 'an undisturbed run' 0
    span=$((${EPOCHREALTIME/[.,]/} - began))
done
bare "$work/said" >"$work/wanted"
on "$work/calm" dump
bare "$work/said" >"$work/wanted_dump"

# kill_one: starts a run and kills it after up to a third of the time that a whole run takes, if it hasn't ended.
kill_one() {
    local delay=$(((RANDOM * 32768 + RANDOM) % (span / 3)))
    : >"$work/said" >"$work/errors"
    "$program" "$work/store" run --epoch "$size" <"$input" >"$work/said" 2>"$work/errors" &
    local victim=$!
    sleep "$(printf '%d.%06d' $((delay / 1000000)) $((delay % 1000000)))"
    kill -9 "$victim" 2>/dev/null
    wait "$victim" 2>/dev/null
    status=$?
}

# told: all whole answers are the wanted ones, and those that an earlier run told already are the same to the byte.
told() {
    local before both
    whole=$(wc -l <"$work/said")
    head -n "$whole" "$work/said" >"$work/front"
    bare "$work/front" | cmp -s - <(head -n "$whole" "$work/wanted") || wrong "answers before kill $kills"
    before=$(wc -l <"$work/told")
    both=$((before < whole ? before : whole))
    cmp -s <(head -n "$both" "$work/front") <(head -n "$both" "$work/told") || wrong "other answers before kill $kills"
    [ "$whole" -le "$before" ] || cp "$work/front" "$work/told"
}

# standing: after a kill the Dones of all batches that were answered are there.
standing() {
    local dones
    on "$work/store" verify
    ends "the verdict after kill $kills" 0
    dones=$(sed -n 's/^serial //p' "$work/said")
    dones=${dones:-1}
    if [ "$((dones % 8))" -ne 0 ] || [ "$dones" -lt "$((whole / size * 8))" ]; then
        wrong "after kill $kills: $whole answers, $dones Dones"
    fi
}

# going: more kills are to come.
number=${2:-300}
going() {
    [ "$failed" -eq 0 ] && [ "$kills" -lt "$number" ]
}

kills=0
while going; do
    new "$work/store" --partitions 4
    : >"$work/told"
    while going; do
        kill_one
        [ "$status" -eq 137 ] || break
        kills=$((kills + 1))
        told
        standing
    done
    on "$work/store" run --epoch "$size"
    ends 'the last run' 0
    told
    [ "$whole" -eq "$lines" ] || wrong 'the answers of the last run'
    on "$work/store" dump
    bare "$work/said" | cmp -s - "$work/wanted_dump" || wrong 'the dump after the last run'
    on "$work/store" verify
    [ "$(cat "$work/said")" = "serial $((lines / 10 * 8))" ] || wrong 'the verdict after the last run'
done
[ "$kills" -gt 0 ] || wrong 'no run was killed'
ended ", after $kills kills"
