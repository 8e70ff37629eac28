#!/usr/bin/env bash
# A keep number on real files: the layout's bytes, what is forgotten is answered old for good, and dump and verify still
# say all.
. "$(dirname "$0")/store.bash"

# says NAME TEXT: what the last run said.
says() {
    [ "$(<"$work/said")" = "$2" ] || wrong "$1: it said $(head -c 300 "$work/said")"
}

# layout NAME HEX: how file 0 ends.
layout() {
    local there
    there=$(od -An -v -tx1 "$work/store/0.coco" | tr -d ' \n')
    case $there in
        *"$2") ;;
        *) wrong "$1: file 0 has $there" ;;
    esac
}

put='{"args":[5,70],"call":"put","id":1}'
get='{"args":[5],"call":"get","id":2}'
later='{"args":[5],"call":"get","id":3}'
before='{"args":[5],"call":"get","id":0}'
input=$work/lines
printf '%s\n' "$put" "$get" >"$input"
new "$work/store"
on "$work/store" run --epoch 1
ends 'two lines' 0

for words in 'migrate' 'migrate --keep 0' 'migrate --keep 1001' 'migrate 1'; do
    on "$work/store" $words
    ends "$words" 1 'coco: bad command line'
done
on "$work/absent" migrate --keep 1
ends 'no store' 7 'coco: not a store: file 0 at byte 0'
[ ! -e "$work/absent" ] || wrong 'migrate made a folder'

on "$work/store" migrate --keep 1
ends 'a keep number' 0
says 'a keep number' ''
layout 'a keep number' 010000001b010201010000000001000000020000000000000000000000000001''00
[ "$(stat -c %s "$work/store/0.coco")" = 71 ] || wrong 'file 0 after a keep number'
on "$work/store" migrate --keep 2
ends 'another keep number' 0
layout 'another keep number' 010000001b010201010000000001000000020000000000000000000000000002''00
[ "$(stat -c %s "$work/store/0.coco")" = 103 ] || wrong 'file 0 after another keep number'

on "$work/store" migrate --keep 1
ends 'the first keep number again' 0
printf '%s\n' "$before" >"$input"
on "$work/store" run
ends 'an id below the forgotten one' 0
says 'an id below the forgotten one' '{"error":"old","line":1}'
on "$work/store" dump
ends 'dump of what is kept and forgotten' 0
says 'dump of what is kept and forgotten' '{"args":[5,70],"call":"put","epoch":1,"id":1,"ok":70,"snapshot":false,"time":1}
{"args":[5],"call":"get","epoch":2,"id":2,"ok":70,"snapshot":false,"time":1}
{"row":5,"table":"main","value":70}'

printf '%s\n' "$put" "$get" "$later" "$get" >"$input"
on "$work/store" run --epoch 1
ends 'what is forgotten' 0
says 'what is forgotten' '{"error":"old","line":1}
{"epoch":2,"id":2,"ok":70,"time":1}
{"epoch":3,"id":3,"ok":70,"time":1}
{"error":"old","line":4}'
printf '%s\n' "$before" >"$input"
on "$work/store" run
ends 'an id below all forgotten ones' 0
says 'an id below all forgotten ones' '{"error":"old","line":1}'
on "$work/store" dump
ends 'dump' 0
[ "$(wc -l <"$work/said")" = 4 ] || wrong "dump said $(wc -l <"$work/said") lines"
on "$work/store" verify
ends 'verify' 0
says 'verify' 'serial 3'
ended
