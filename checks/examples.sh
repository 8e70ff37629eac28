#!/usr/bin/env bash
# The examples on the built program: answers and rows are those that stand beside the requests, for epochs of several
# sizes and on several partitions; the same lines again get the same answers, and change nothing. And the stores of three
# nodes and of a year: what their scripts say.
set -u
cd "$(dirname "$0")/.." || exit 2
program=${1:-$PWD/crates/coco/out/coco}
if [ ! -x "$program" ]; then
    echo "$program isn't built: run rt ci first"
    exit 2
fi
work=$(mktemp -d) || exit 2
trap 'rm -rf "$work"' EXIT
failed=0

# same WHAT FILE WANTED: the two files must have the same bytes.
same() {
    local differs
    differs=$(diff "$2" "$3") && return
    echo "$name, $size lines an epoch: $1"
    head -5 <<<"$differs"
    failed=1
}

# without_place FILE: answers without their epochs and times.
without_place() {
    sed 's/"epoch":[0-9]*,//; s/,"time":[0-9]*}/}/' "$1"
}

# example NAME SIZE SIZE..: the answers that stand there are those of the first size; of the others they are the same but
# for epochs and times.
example() {
    local folder=examples/$1 exact=$2
    name=$1
    shift
    for size; do
        rm -rf "$work/store"
        "$program" "$work/store" init --partitions $((1 + size % 5)) <"$folder/procedures.coco" || failed=1
        "$program" "$work/store" run --epoch "$size" <"$folder/requests.jsonl" >"$work/said" || failed=1
        if [ "$size" -eq "$exact" ]; then
            same answers "$work/said" "$folder/replies.jsonl"
        fi
        same 'answers without epoch and time' <(without_place "$work/said") <(without_place "$folder/replies.jsonl")
        "$program" "$work/store" dump </dev/null >"$work/dump" || failed=1
        same rows <(grep '^{"row"' "$work/dump") "$folder/rows.jsonl"
        # A Done is said as its request and its answer.
        grep -v '^{"row"' "$work/dump" | sed 's/^{"args":.*,"call":"[a-z]*",/{/; s/"snapshot":[a-z]*,//' | sort >"$work/dones"
        grep -v '^{"error"' "$work/said" | sort -u >"$work/replies"
        same Dones "$work/dones" "$work/replies"
        "$program" "$work/store" verify </dev/null >"$work/verdict" || failed=1
        same verdict "$work/verdict" <(echo "serial $(wc -l <"$work/replies")")
        "$program" "$work/store" run </dev/null >"$work/nothing" || failed=1
        "$program" "$work/store" run --epoch 7 <"$folder/requests.jsonl" >"$work/again" || failed=1
        same 'answers of a second run' "$work/again" "$work/said"
        "$program" "$work/store" dump </dev/null >"$work/later" || failed=1
        same 'the dump behind a second run' "$work/later" "$work/dump"
    done
}

# The first two have a snapshot call, which has to stand in a later epoch than the lines that it sees.
example bank 4 1 2 3 5
example builtin 4 1 2 3
example shop 100 1 2 3 5 1024
example booking 100 1 2 3 7 1024

# Three nodes: the answers stand there twice, and between them which file was lost and which one there is now.
name='three nodes' size=4
COCO=$program bash examples/nodes.sh >"$work/said" || failed=1
same 'what it says' "$work/said" <(
    echo 'coco store init --nodes 3 --partitions 3 --copies 2'
    echo 'coco store run --epoch 4'
    cat examples/bank/replies.jsonl
    echo 'rm store/3.coco'
    echo 'coco store run --epoch 4'
    echo 'coco: not a store: file 3 at byte 0'
    echo 'status 7'
    echo 'python3 layout.py store/0.coco files'
    echo '1 2 3 4'
    echo 'coco store rebuild --node 1'
    echo 'python3 layout.py store/0.coco files'
    echo '1 2 5 4'
    echo 'coco store run --epoch 4'
    cat examples/bank/replies.jsonl
    echo 'coco store verify'
    echo 'serial 15'
    echo 'rm -r store'
    echo 'coco store init --nodes 3 --partitions 3 --copies 2'
    echo 'coco store run --epoch 4 --disturb 5'
    cat examples/bank/replies.jsonl
    echo 'coco store verify'
    echo 'serial 15'
)

# A year of ten lines a day. How long the store takes to open is left out.
name='a year' size=10
COCO=$program bash examples/year.sh 10 >"$work/said" || failed=1
same 'what it says' <(sed 's/ in [0-9]* milliseconds//' "$work/said") <(
    echo 'at the end of the year: 320382 bytes, opened'
    echo '320382 bytes were 21908'
    echo 'made small: 21908 bytes, opened'
    echo '{"epoch":365,"id":3650,"ok":1000,"time":10}'
    echo '{"error":"old","line":2}'
)

# quotes PAGE TEXT: what a page shows of an example is what stands there.
quotes() {
    case $(cat "$1") in
    *"$2"*) ;;
    *)
        echo "$1 shows an example as it isn't"
        failed=1
        ;;
    esac
}
quotes docs/LANGUAGE.md "$(cat examples/bank/procedures.coco)"
quotes README.md "$(head -n 3 examples/bank/requests.jsonl)"
quotes README.md "$(head -n 3 examples/bank/replies.jsonl)"

[ "$failed" -eq 0 ] && echo 'all as wanted'
exit "$failed"
