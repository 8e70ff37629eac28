#!/usr/bin/env bash
# A store that is made small, on real files: the bytes of its new files, and that no line tells it from the one before;
# then kills in the middle, each of which leaves the old files or the new ones.
# Words: the program, and how many kills; without a number there are 40.
. "$(dirname "$0")/store.bash"
draws

# says NAME TEXT: what the last run said.
says() {
    [ "$(<"$work/said")" = "$2" ] || wrong "$1: it said $(head -c 300 "$work/said")"
}

# has NAME FILE HEX: how a file ends.
has() {
    local there
    there=$(od -An -v -tx1 "$work/store/$2.coco" | tr -d ' \n')
    case $there in
        *"$3") ;;
        *) wrong "$1: file $2 has $there" ;;
    esac
}

put='{"args":[5,70],"call":"put","id":1}'
get='{"args":[5],"call":"get","id":2}'
later='{"args":[5],"call":"get","id":3}'
input=$work/lines
printf '%s\n' "$put" "$get" >"$input"
new "$work/store"
on "$work/store" run --epoch 1
ends 'two lines' 0
on "$work/store" dump
cp "$work/said" "$work/dump"

for words in 'compact 1' 'compact --keep 1'; do
    on "$work/store" $words
    ends "$words" 1 'coco: bad command line'
done
on "$work/absent" compact
ends 'no store' 7 'coco: not a store: file 0 at byte 0'
[ ! -e "$work/absent" ] || wrong 'compact made a folder'

on "$work/store" compact
ends 'compact' 0
says 'compact' ''
has 'compact' 0 010000001f0103010100000000040000000500000000000000020000000000000000000300
[ "$(stat -c %s "$work/store/0.coco")" = 75 ] || wrong 'file 0 after compact'
[ "$(stat -c %s "$work/store/3.coco")" = 190 ] || wrong 'the base file'
has 'the coordinator' 4 434f434f4c4f470100
has 'the node' 5 434f434f4c4f470200
on "$work/store" dump
cmp -s "$work/said" "$work/dump" || wrong 'the dump after compact'
on "$work/store" verify
says 'verify after compact' 'serial 0'
printf '%s\n' "$put" "$later" >"$input"
on "$work/store" run
ends 'a known line and a new one' 0
says 'a known line and a new one' '{"epoch":1,"id":1,"ok":70,"time":1}
{"epoch":3,"id":3,"ok":70,"time":1}'
on "$work/store" verify
says 'verify after a line more' 'serial 1'
on "$work/store" query --at 1
ends 'a query of an epoch left behind' 14 'coco: epoch 1 is not in 2 to 3'
on "$work/store" compact
ends 'compact again' 0
has 'compact again' 0 010000001f0103010100000000020000000600000000000000030000000000000000000100
on "$work/store" migrate --keep 1
ends 'a keep number' 0
on "$work/store" compact
ends 'compact with a keep number' 0
printf '%s\n' "$put" "$later" >"$input"
on "$work/store" run
ends 'what is forgotten' 0
says 'what is forgotten' '{"error":"old","line":1}
{"epoch":3,"id":3,"ok":70,"time":1}'

# Kills: a large store is copied, and made small; a kill leaves it or the small one, and so does each one behind it.
adds 20000 >"$input"
new "$work/calm" --partitions 4
on "$work/calm" run --epoch 100
ends 'many lines' 0
bare "$work/said" >"$work/wanted"
on "$work/calm" dump
cp "$work/said" "$work/dump"
rm -rf "$work/timed"
cp -r "$work/calm" "$work/timed"
began=${EPOCHREALTIME/[.,]/}
on "$work/timed" compact
ends 'an undisturbed compact' 0
span=$((${EPOCHREALTIME/[.,]/} - began))

# killed: starts compact and kills it within the time that it takes, if it hasn't ended.
killed() {
    local delay=$(((RANDOM * 32768 + RANDOM) % span))
    "$program" "$work/store" compact >"$work/said" 2>"$work/errors" &
    local victim=$!
    sleep "$(printf '%d.%06d' $((delay / 1000000)) $((delay % 1000000)))"
    kill -9 "$victim" 2>/dev/null
    wait "$victim" 2>/dev/null
    status=$?
}

kills=0
number=${2:-40}
rm -rf "$work/store"
cp -r "$work/calm" "$work/store"
for _ in $(seq $((number * 4))); do
    [ "$failed" -eq 0 ] && [ "$kills" -lt "$number" ] || break
    killed
    if [ "$status" -eq 137 ]; then
        kills=$((kills + 1))
    else
        ends 'a compact that was not killed' 0
    fi
    on "$work/store" dump
    ends "the dump after kill $kills" 0
    cmp -s "$work/said" "$work/dump" || wrong "the dump after kill $kills"
    # A store that is small already is begun anew.
    if [ "$(stat -c %s "$work/store/0.coco")" != "$(stat -c %s "$work/calm/0.coco")" ]; then
        on "$work/store" run --epoch 100
        ends 'the lines again' 0
        bare "$work/said" | cmp -s - "$work/wanted" || wrong 'the answers of a small store'
        rm -rf "$work/store"
        cp -r "$work/calm" "$work/store"
    fi
done
[ "$kills" -gt 0 ] || wrong 'no compact was killed'
on "$work/store" compact
ends 'the last compact' 0
on "$work/store" dump
cmp -s "$work/said" "$work/dump" || wrong 'the dump after the last compact'

# What a compaction leaves on the disk is freed, and the store is the same.
bash examples/compact.sh "$program" "$work/store" >"$work/said" || wrong "the example: $(head -c 200 "$work/said")"
on "$work/store" dump
cmp -s "$work/said" "$work/dump" || wrong 'the dump after the example'
[ "$(ls "$work/store" | wc -l)" = 4 ] || wrong "files after the example: $(ls "$work/store" | tr '\n' ' ')"
bash examples/compact.sh "$program" "$work/store" 3 >"$work/said" || wrong "the example: $(head -c 200 "$work/said")"
on "$work/store" verify
ends 'verify after the example' 0
ended ", after $kills kills"
