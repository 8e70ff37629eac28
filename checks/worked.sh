#!/usr/bin/env bash
# Worked rows on the built program: lines of requests, and the answers that they must get.
. "$(dirname "$0")/store.bash"

# says NAME: what the last run said must be the lines of file 4.
says() {
    diff "$work/said" - <&4 || wrong "$1: it said other lines than wanted"
}

# answers NAME EPOCH [PROCEDURES]: on a new store the lines of file 3 must get the answers of file 4.
answers() {
    input=${3:-/dev/null}
    rm -rf "$work/store"
    on "$work/store" init
    ends "$1, a new store" 0
    input=$work/lines
    cat <&3 >"$input"
    on "$work/store" run --epoch "$2"
    ends "$1" 0
    says "$1"
}

answers 'put then get in two epochs' 1 3<<'IN' 4<<'OUT'
{"args":[5,70],"call":"put","id":1}
{"args":[5],"call":"get","id":2}
IN
{"epoch":1,"id":1,"ok":70,"time":1}
{"epoch":2,"id":2,"ok":70,"time":1}
OUT

answers 'put then get in one epoch' 2 3<<'IN' 4<<'OUT'
{"args":[5,70],"call":"put","id":1}
{"args":[5],"call":"get","id":2}
IN
{"epoch":1,"id":1,"ok":70,"time":1}
{"epoch":1,"id":2,"ok":70,"time":2}
OUT

answers 'the same with a snapshot get' 2 3<<'IN' 4<<'OUT'
{"args":[5,70],"call":"put","id":1}
{"args":[5],"call":"get","id":2,"snapshot":true}
IN
{"epoch":1,"id":1,"ok":70,"time":1}
{"epoch":1,"id":2,"ok":null,"time":0}
OUT

answers 'get of an absent row, then put of it' 2 3<<'IN' 4<<'OUT'
{"args":[5],"call":"get","id":1}
{"args":[5,7],"call":"put","id":2}
IN
{"epoch":1,"id":1,"ok":null,"time":1}
{"epoch":1,"id":2,"ok":7,"time":2}
OUT

answers 'overflow is refused and leaves the row' 1 3<<'IN' 4<<'OUT'
{"args":[5,9223372036854775807],"call":"put","id":1}
{"args":[5,1],"call":"add","id":2}
{"args":[5],"call":"get","id":3}
IN
{"epoch":1,"id":1,"ok":9223372036854775807,"time":1}
{"epoch":2,"id":2,"refused":"overflow","time":1}
{"epoch":3,"id":3,"ok":9223372036854775807,"time":1}
OUT

answers 'a repeated line gets the text of its Done' 2 3<<'IN' 4<<'OUT'
{"args":[5,70],"call":"put","id":1}
{"args":[5,70],"call":"put","id":1}
{"args":[5,70],"call":"put","id":1}
IN
{"epoch":1,"id":1,"ok":70,"time":1}
{"epoch":1,"id":1,"ok":70,"time":1}
{"epoch":1,"id":1,"ok":70,"time":1}
OUT

on "$work/store" dump
ends 'the dump behind a repeated line' 0
says 'the dump behind a repeated line' 4<<'OUT'
{"args":[5,70],"call":"put","epoch":1,"id":1,"ok":70,"snapshot":false,"time":1}
{"row":5,"table":"main","value":70}
OUT

answers 'another call under a known id is reused' 2 3<<'IN' 4<<'OUT'
{"args":[5,70],"call":"put","id":1}
{"args":[5,71],"call":"put","id":1}
{"args":[5],"call":"get","id":1}
IN
{"epoch":1,"id":1,"ok":70,"time":1}
{"error":"reused","line":2}
{"error":"reused","line":3}
OUT

answers 'puts into two rows at one time' 2 3<<'IN' 4<<'OUT'
{"args":[5,1],"call":"put","id":1}
{"args":[6,2],"call":"put","id":2}
IN
{"epoch":1,"id":1,"ok":1,"time":1}
{"epoch":1,"id":2,"ok":2,"time":1}
OUT

answers 'snapshot calls read the epoch before' 4 3<<'IN' 4<<'OUT'
{"args":[5],"call":"get","id":9,"snapshot":true}
{"args":[5,1],"call":"add","id":3}
{"args":[5],"call":"get","id":8,"snapshot":true}
{"args":[5,1],"call":"add","id":2}
{"args":[5],"call":"get","id":7,"snapshot":true}
IN
{"epoch":1,"id":9,"ok":null,"time":0}
{"epoch":1,"id":3,"ok":1,"time":1}
{"epoch":1,"id":8,"ok":null,"time":0}
{"epoch":1,"id":2,"ok":2,"time":2}
{"epoch":2,"id":7,"ok":2,"time":0}
OUT

answers 'a bad row and a wrong kind are refused' 1 3<<'IN' 4<<'OUT'
{"args":[-1],"call":"get","id":1}
{"args":["a"],"call":"get","id":2}
IN
{"epoch":1,"id":1,"refused":"bad row","time":1}
{"epoch":2,"id":2,"refused":"kind","time":1}
OUT

answers 'each refused line has its class and its number' 2 3<<'IN' 4<<'OUT'

{
[]
{"args":[5],"call":"find","id":1}
{"args":[5,6],"call":"get","id":1}
{"args":[5,6],"call":"put","id":1,"snapshot":true}
{"args":[5,70],"call":"put","id":1}
IN
{"error":"json","line":1}
{"error":"json","line":2}
{"error":"shape","line":3}
{"error":"name","line":4}
{"error":"args","line":5}
{"error":"snapshot","line":6}
{"epoch":1,"id":1,"ok":70,"time":1}
OUT

# Lines of which each is refused by itself, in one batch with two that a procedure refuses.
answers 'hostile lines' 20 3< <(
    printf '\n{\n\xff\n%s\n' "$(head -c 200 /dev/zero | tr '\0' '[')"
    cat <<'IN'
[]
{"args":[],"call":"get","id":-1}
{"args":[5],"call":"get","id":1,"x":0}
{"args":[],"call":"zzz","id":1}
{"args":[1],"call":"put","id":1}
{"args":[1.5],"call":"get","id":1}
{"args":[[1]],"call":"get","id":1}
{"args":[1,2],"call":"put","id":1,"snapshot":true}
{"args":[-1],"call":"get","id":1}
{"args":["a"],"call":"get","id":2}
IN
) 4<<'OUT'
{"error":"json","line":1}
{"error":"json","line":2}
{"error":"json","line":3}
{"error":"json","line":4}
{"error":"shape","line":5}
{"error":"shape","line":6}
{"error":"shape","line":7}
{"error":"name","line":8}
{"error":"args","line":9}
{"error":"args","line":10}
{"error":"args","line":11}
{"error":"snapshot","line":12}
{"epoch":1,"id":1,"refused":"bad row","time":1}
{"epoch":1,"id":2,"refused":"kind","time":1}
OUT

answers 'a procedure refuses with its own number' 1 bench/bank.coco 3<<'IN' 4<<'OUT'
{"args":[1,100],"call":"open","id":1}
{"args":[2,0],"call":"open","id":2}
{"args":[1,2,150],"call":"move","id":3}
IN
{"epoch":1,"id":1,"ok":100,"time":1}
{"epoch":2,"id":2,"ok":0,"time":1}
{"epoch":3,"id":3,"refused":"user 2","time":1}
OUT

answers 'the greatest and the least id, a null and a text' 1 3<<'IN' 4<<'OUT'
{"args":[5,null],"call":"put","id":18446744073709551615}
{"args":[5,"é"],"call":"put","id":0}
IN
{"epoch":1,"id":18446744073709551615,"ok":null,"time":1}
{"epoch":2,"id":0,"ok":"é","time":1}
OUT

# In the node's file stands an entry of the greatest number that an epoch may have, so none is left for the next one.
new "$work/store"
printf '\x01\0\0\0\x0d\x03\0\0\0\xff\xff\xff\xff\xff\0\0\0\0\0' |
    dd of="$work/store/2.coco" bs=1 seek=8 conv=notrunc status=none
echo '{"args":[5,70],"call":"put","id":1}' >"$input"
on "$work/store" run --epoch 1
ends 'epochs used up' 8 'coco: epochs used up'
says 'epochs used up' 4</dev/null
ended
