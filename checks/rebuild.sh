#!/usr/bin/env bash
# The file of a lost node made again, on real files: its bytes, and what the store says then; what can't be made again is
# refused; then kills in the middle, each of which leaves the store without the file or with it.
# Words: the program, and how many kills; without a number there are 40. several_nodes.py writes the stores, since no run
# leaves entries that were never committed.
. "$(dirname "$0")/store.bash"
draws

# several NODES PARTITIONS COPIES EPOCHS NODE: such a store, what it says, and in $work/again the node's file made again.
several() {
    rm -rf "$work/store"
    mkdir "$work/store"
    python3 checks/several_nodes.py "$work/store" "$@" "$work/again" || wrong 'no store of several nodes'
    on "$work/store" dump
    ends 'a dump of several nodes' 0
    cp "$work/said" "$work/dump"
}

# lose FILE: it is empty, and the store is refused.
lose() {
    : >"$work/store/$1.coco"
    on "$work/store" dump
    ends "a dump without file $1" 7 "coco: not a store: file $1 at byte 0"
    rm -rf "$work/lost"
    cp -r "$work/store" "$work/lost"
}

# names FILE..: the files that the last layout names.
names() {
    [ "$(python3 examples/layout.py "$work/store/0.coco" files)" = "$*" ] ||
        wrong "the last layout names $(python3 examples/layout.py "$work/store/0.coco" files)"
}

# same FILE..: they are as they were when the file was lost.
same() {
    local file
    for file; do
        cmp -s "$work/store/$file.coco" "$work/lost/$file.coco" || wrong "file $file has changed"
    done
}

# says_all COUNT: the store says all that it said before, and each reply is that of a serial run.
says_all() {
    on "$work/store" dump
    ends 'a dump after rebuild' 0
    cmp -s "$work/said" "$work/dump" || wrong 'the dump after rebuild'
    on "$work/store" verify
    ends 'verify after rebuild' 0
    [ "$(<"$work/said")" = "serial $1" ] || wrong "verify after rebuild: $(<"$work/said")"
}

# reads: in a copy of the store a get of row 5 is the next epoch's request.
reads() {
    local input=$work/get
    rm -rf "$work/copy"
    cp -r "$work/store" "$work/copy"
    on "$work/copy" run
    ends 'a get after rebuild' 0
    [ "$(<"$work/said")" = '{"epoch":2,"id":2,"ok":70,"time":1}' ] || wrong "a get after rebuild: $(<"$work/said")"
}

# rebuilt NODE FILE: the node's file is made again as this one, and nothing is said.
rebuilt() {
    on "$work/store" rebuild --node "$1"
    ends "rebuild of node $1" 0
    [ ! -s "$work/said" ] || wrong "rebuild of node $1 said something"
    cmp -s "$work/store/$2.coco" "$work/again" || wrong "file $2 after rebuild"
}

# refused STATUS LINE NODE: the node's file isn't made again, and nothing changes.
refused() {
    rm -rf "$work/before"
    cp -r "$work/store" "$work/before"
    on "$work/store" rebuild --node "$3"
    ends "rebuild of node $3" "$1" "$2"
    diff -r "$work/store" "$work/before" || wrong "the refused rebuild of node $3 changed the store"
}

for words in rebuild 'rebuild 2' 'rebuild --node 8' 'rebuild --node 1 --node 1'; do
    on "$work/absent" $words
    ends "$words" 1 'coco: bad command line'
done
on "$work/absent" rebuild --node 0
ends 'no store' 7 'coco: not a store: file 0 at byte 0'
[ ! -e "$work/absent" ] || wrong 'rebuild made a folder'

# Three nodes, each of which holds all three partitions, and one epoch. The files' numbers go to and fro.
echo '{"args":[5],"call":"get","id":2}' >"$work/get"
several 3 3 2 1 2
lose 4
on "$work/store" run
ends 'a run without file 4' 7 'coco: not a store: file 4 at byte 0'
rebuilt 2 5
same 1 2 3 4
names 1 2 3 5
cmp -s "$work/store/5.coco" "$work/store/3.coco" || wrong 'the file of the other node'
says_all 1
reads
rm "$work/store/4.coco"
rebuilt 2 4
names 1 2 3 4
says_all 1

# With a keep number and a base, which stay. After a compaction the least free number is 1, whose old bytes stay behind the
# last gate of the new log.
on "$work/store" migrate --keep 1000
ends 'a keep number' 0
on "$work/store" compact
ends 'compact' 0
names 5 6 7 8 9
: >"$work/store/9.coco"
on "$work/store" rebuild --node 2
ends 'rebuild after compact' 0
names 5 6 7 8 1
[ "$(tail -c 45 "$work/store/0.coco" | od -An -v -tx1 | tr -d ' \n')" = \
    010000002701030303020000000600000007000000080000000100000000000000010000000003e80000000500 ] || wrong 'the last layout'
[ "$(head -c 9 "$work/store/1.coco" | od -An -v -tx1 | tr -d ' \n')" = 434f434f4c4f470200 ] || wrong 'file 1 after compact'
reads
on "$work/store" dump
cmp -s "$work/said" "$work/dump" || wrong 'the dump after compact and rebuild'

# Four nodes, five partitions, one copy: the rows come of the nodes on both sides. What was prepared and not committed
# isn't copied.
for node in 0 1 2 3; do
    several 4 5 1 100 "$node"
    lose $((2 + node))
    rebuilt "$node" 6
    says_all 86
done

# Without copies a node that holds no partition is made again, and another is refused, as is one that isn't there; a file
# that is no part of the store is told first.
several 3 2 0 10 2
refused 12 'coco: partition 0 has no other holder' 0
refused 12 'coco: partition 1 has no other holder' 1
refused 13 'coco: no node 3 of 3' 3
lose 4
rebuilt 2 5
says_all 9
: >"$work/store/3.coco"
refused 7 'coco: not a store: file 3 at byte 0' 2
refused 7 'coco: not a store: file 3 at byte 0' 7
new "$work/store"
refused 12 'coco: partition 0 has no other holder' 0
refused 13 'coco: no node 1 of 1' 1

# Kills: a kill leaves the store without the file or with it, and the other files as they were.
several 4 5 2 40000 2
lose 4
began=${EPOCHREALTIME/[.,]/}
rebuilt 2 6
span=$((${EPOCHREALTIME/[.,]/} - began))

# killed: starts rebuild and kills it within the time that it takes, if it hasn't ended.
killed() {
    local delay=$(((RANDOM * 32768 + RANDOM) % span))
    "$program" "$work/store" rebuild --node 2 >"$work/said" 2>"$work/errors" &
    local victim=$!
    sleep "$(printf '%d.%06d' $((delay / 1000000)) $((delay % 1000000)))"
    kill -9 "$victim" 2>/dev/null
    wait "$victim" 2>/dev/null
    status=$?
}

kills=0
number=${2:-40}
rm -rf "$work/store"
cp -r "$work/lost" "$work/store"
for _ in $(seq $((number * 4))); do
    [ "$failed" -eq 0 ] && [ "$kills" -lt "$number" ] || break
    killed
    if [ "$status" -eq 137 ]; then
        kills=$((kills + 1))
    else
        ends 'a rebuild that was not killed' 0
    fi
    same 1 2 3 4 5
    on "$work/store" dump
    if [ "$status" -eq 0 ]; then
        cmp -s "$work/said" "$work/dump" || wrong "the dump after kill $kills"
        cmp -s "$work/store/6.coco" "$work/again" || wrong "file 6 after kill $kills"
        # A store that has the file is begun anew.
        rm -rf "$work/store"
        cp -r "$work/lost" "$work/store"
    else
        ends "the dump after kill $kills" 7 'coco: not a store: file 4 at byte 0'
    fi
done
[ "$kills" -gt 0 ] || wrong 'no rebuild was killed'
rebuilt 2 6
says_all 34286
ended ", after $kills kills"
