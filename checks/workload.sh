#!/usr/bin/env bash
# Workloads that are made from a number, on the built program: what is told of them, on one node and on three, with the
# net disturbed too, and of a second time.
. "$(dirname "$0")/store.bash"

# tells NAME CALLS EPOCHS SUM WORD..: the workload's three lines.
tells() {
    on "$work/store" try "${@:5}"
    ends "$1" 0
    printf 'calls %s\nepochs %s\nsum %s\n' "$2" "$3" "$4" | cmp -s - "$work/said" || wrong "$1: it said $(<"$work/said")"
}

new "$work/store"
tells 'a batch for each call' 2000 2000 0 --calls 2000 --seed 7 --epoch 1
new "$work/store"
tells 'a hundred calls in a batch' 2000 20 0 --calls 2000 --seed 7

new "$work/store"
tells 'a large workload' 100000 100 0 --calls 100000 --seed 3 --epoch 1000 --workers 4
tells 'the same once more' 100000 0 0 --calls 100000 --seed 3 --epoch 1000 --workers 4
on "$work/store" verify
ends 'a verdict' 0
grep -qx 'serial 100000' "$work/said" || wrong "a verdict: it said $(<"$work/said")"

new "$work/store" --nodes 3 --partitions 3 --copies 2
for seed in 0 5 9223372036854775807; do
    tells "disturbed by $seed" 2000 20 0 --calls 2000 --seed "$((seed % 1000))" --workers 4 --disturb "$seed"
done
on "$work/store" verify
ends 'a verdict of three nodes' 0
grep -qx 'serial 6000' "$work/said" || wrong "a verdict of three nodes: it said $(<"$work/said")"

# Twenty accounts on three nodes, whose net is disturbed, take part in two hundred transfers.
cat >"$work/bank" <<'TEXT'
table acct;
proc open(a, n) { put acct[a] = n; reply n; }
proc move(a, b, n) { let x = get acct[a]; let y = get acct[b]; put acct[a] = x - n; put acct[b] = y + n; reply x - n; }
TEXT
for ((i = 1; i <= 20; i++)); do
    echo "{\"args\":[$i,1000],\"call\":\"open\",\"id\":$i}"
done >"$work/opens"
for ((i = 0; i < 200; i++)); do
    echo "{\"args\":[$((1 + i % 20)),$((1 + (i + 7) % 20)),10],\"call\":\"move\",\"id\":$((21 + i))}"
done >"$work/moves"
rm -rf "$work/store"
input=$work/bank
on "$work/store" init --nodes 3 --partitions 3 --copies 2
ends 'a bank' 0
input=$work/opens
on "$work/store" run --epoch 50 --workers 4
ends 'accounts' 0
input=$work/moves
on "$work/store" run --epoch 50 --workers 4 --disturb 5
ends 'transfers' 0
sed 's/.*"id":\([0-9]*\),"ok":.*/\1/' "$work/said" | cmp -s - <(seq 21 220) || wrong 'transfers: they are not all answered in their order'

ended
