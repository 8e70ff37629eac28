#!/usr/bin/env bash
# Stores of several nodes, on real files: their bytes; whatever they answer and say is what a store of one node does, also
# with a keep number, made small, and asked as they were; the file of a node that is lost is made again; then runs that are
# killed at random moments.
# Words: the program, and how many kills; without a number there are 60.
. "$(dirname "$0")/store.bash"
draws

# has NAME FILE HEX: the file has these bytes.
has() {
    local there
    there=$(od -An -v -tx1 "$work/store/$2.coco" | tr -d ' \n')
    [ "$there" = "$3" ] || wrong "$1: file $2 has $there"
}

# as_one WHAT WORD..: the command ends alike on the store and on that of one node, and says the same.
as_one() {
    on "$work/one" "${@:2}"
    ends "$1 of one node" 0
    cp "$work/said" "$work/wanted"
    on "$work/store" "${@:2}"
    ends "$1 $shape" 0
    cmp -s "$work/said" "$work/wanted" || wrong "$1 $shape: it said other lines than one node"
}

# alike NODES PARTITIONS COPIES: such a store is told from one of one node by nothing that it says.
alike() {
    shape="of $1 nodes, $2 partitions and $3 copies"
    input=/dev/null
    new "$work/one"
    new "$work/store" --nodes "$1" --partitions "$2" --copies "$3"
    input=$work/first
    as_one 'a run' run --epoch 10
    as_one 'the same run again' run --epoch 7
    input=/dev/null
    as_one 'a dump' dump
    as_one 'a verdict' verify
    as_one 'a keep number' migrate --keep 9
    input=$work/gets
    as_one 'a query' query --at 3 --readers 2
    input=/dev/null
    as_one 'compact' compact
    input=$work/lines
    as_one 'a run on a small store' run --epoch 50 --workers 1
    input=/dev/null
    as_one 'the dump of a small store' dump
    as_one 'the verdict on a small store' verify
}

for words in '--nodes 0' '--nodes 9' '--copies 1' '--nodes 3 --copies 3' '--copies=8 --nodes=8' '--nodes 2 --nodes 2'; do
    on "$work/absent" init $words
    ends "init $words" 1 'coco: bad command line'
done
[ ! -e "$work/absent" ] || wrong 'bad words made a folder'

# Three nodes, of which each holds all three partitions; each node's entry has the row.
input=/dev/null
new "$work/store" --copies 2 --partitions 3 --nodes 3
has init 0 434f434f4c4f4700010000002101010303020000000100000002000000030000000400000000000000000000000000
for file in 1 2 3 4; do
    kind=02
    [ "$file" -gt 1 ] || kind=01
    has init "$file" "434f434f4c4f47${kind}00"
done
printf '{"args":[5,70],"call":"put","id":1}\n{"args":[5],"call":"get","id":2}\n' >"$work/few"
head -n 1 "$work/few" >"$work/put"
input=$work/put
on "$work/store" run --epoch 1
ends 'a put on three nodes' 0
[ "$(<"$work/said")" = '{"epoch":1,"id":1,"ok":70,"time":1}' ] || wrong "a put on three nodes: $(<"$work/said")"
for file in 2 3 4; do
    has 'a put' "$file" 434f434f4c4f4702010000002803000000000000000100000001000000000000000000050000000000000001010000000000000046'00'
done
input=$work/few
on "$work/store" run --epoch 1 --workers 4
ends 'a get on three nodes' 0
[ "$(tail -n 1 "$work/said")" = '{"epoch":2,"id":2,"ok":70,"time":1}' ] || wrong "a get on three nodes: $(<"$work/said")"

adds 400 >"$work/lines"
head -n 150 "$work/lines" >"$work/first"
seq 0 49 | awk '{ printf "{\"args\":[%d],\"call\":\"get\",\"id\":%d}\n", $1, 1000 + $1 }' >"$work/gets"
alike 1 5 0
alike 2 1 0
alike 2 2 1
alike 3 3 2
alike 4 3 1
alike 8 64 7

# A node's file may lie elsewhere, behind a link. With that place it is lost, and made again in the folder; and the next run
# goes on.
shape='with a file elsewhere, and behind rebuild'
head -n 250 "$work/lines" >"$work/half"
for node in 0 1 2; do
    input=/dev/null
    new "$work/one"
    new "$work/store" --nodes 3 --partitions 5 --copies 1
    input=$work/first
    as_one 'a run' run --epoch 10
    mv "$work/store/$((2 + node)).coco" "$work/elsewhere"
    ln -s "$work/elsewhere" "$work/store/$((2 + node)).coco"
    input=$work/half
    as_one 'a run' run --epoch 10
    [ -L "$work/store/$((2 + node)).coco" ] || wrong 'the link is gone'
    rm "$work/elsewhere"
    on "$work/store" run
    ends 'a run without a file' 7 "coco: not a store: file $((2 + node)) at byte 0"
    on "$work/store" rebuild --node "$node"
    ends 'rebuild' 0
    input=$work/lines
    as_one 'a run' run --epoch 10
    input=/dev/null
    as_one 'a dump' dump
done

# Kills: what was said before one stands, and each request has its one answer. Two of the three nodes are the primary of two
# partitions, and each holds all five.
size=10
lines=150
input=$work/lines
span=0
while [ "$span" -lt 250000 ] && [ "$failed" -eq 0 ]; do
    lines=$((lines * 2))
    adds "$lines" >"$work/lines"
    new "$work/calm" --nodes 3 --partitions 5 --copies 2
    began=${EPOCHREALTIME/[.,]/}
    on "$work/calm" run --epoch "$size"
    ends 'an undisturbed run' 0
    span=$((${EPOCHREALTIME/[.,]/} - began))
done
bare "$work/said" >"$work/wanted"
on "$work/calm" dump
bare "$work/said" >"$work/wanted_dump"
grep -v '^{"row"' "$work/wanted_dump" >"$work/wanted_dones"

# kill_one: starts a run and kills it after up to a third of the time that a whole run takes, if it hasn't ended.
kill_one() {
    local delay=$(((RANDOM * 32768 + RANDOM) % (span / 3)))
    : >"$work/said"
    "$program" "$work/store" run --epoch "$size" <"$input" >"$work/said" 2>"$work/errors" &
    local victim=$!
    sleep "$(printf '%d.%06d' $((delay / 1000000)) $((delay % 1000000)))"
    kill -9 "$victim" 2>/dev/null
    wait "$victim" 2>/dev/null
    status=$?
}

# told: all whole answers are the wanted ones.
told() {
    whole=$(wc -l <"$work/said")
    head -n "$whole" "$work/said" >"$work/front"
    bare "$work/front" | cmp -s - <(head -n "$whole" "$work/wanted") || wrong "answers before kill $kills"
}

# kept: the replies are those of a serial run, and the Dones are the first of those wanted, with each that was said.
kept() {
    local count
    on "$work/store" verify
    ends "the verdict after kill $kills" 0
    on "$work/store" dump
    ends "the dump after kill $kills" 0
    bare "$work/said" | grep -v '^{"row"' >"$work/dones"
    count=$(wc -l <"$work/dones")
    cmp -s "$work/dones" <(head -n "$count" "$work/wanted_dones") || wrong "the Dones after kill $kills"
    [ "$(grep -o '"id":[0-9]*' "$work/front" | sort -u | wc -l)" -le "$count" ] || wrong "an answer before kill $kills is gone"
}

kills=0
number=${2:-60}
while [ "$failed" -eq 0 ] && [ "$kills" -lt "$number" ]; do
    new "$work/store" --nodes 3 --partitions 5 --copies 2
    while [ "$failed" -eq 0 ] && [ "$kills" -lt "$number" ]; do
        kill_one
        [ "$status" -eq 137 ] || break
        kills=$((kills + 1))
        told
        kept
    done
    whole "$work/store"
    on "$work/store" dump
    bare "$work/said" | cmp -s - "$work/wanted_dump" || wrong 'the dump after the last run'
done
[ "$kills" -gt 0 ] || wrong 'no run was killed'
ended ", after $kills kills"
