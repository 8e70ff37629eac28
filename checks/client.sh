#!/usr/bin/env bash
# The example of a client: each of its calls is answered once, though the program is killed under it again and again.
. "$(dirname "$0")/store.bash"

"$program" "$work/store" init <examples/bank/procedures.coco || wrong 'init'
{
    printf '[1,"open",1,100000]\n[2,"open",2,0]\n'
    seq 3 1500 | sed 's/.*/[&,"move",1,2,10]/'
} >"$work/calls"
python3 examples/client/client.py "$program" "$work/store" <"$work/calls" >"$work/answers" 2>"$work/errors" &
client=$!
kills=0
# Before its first answer it may have other programs below it, those that find Python.
while kill -0 "$client" 2>/dev/null && [ ! -s "$work/answers" ]; do sleep 0.05; done
while kill -0 "$client" 2>/dev/null; do
    sleep 0.05
    pkill -9 -P "$client" && kills=$((kills + 1))
done
wait "$client" || wrong "the client: $(tail -1 "$work/errors")"
[ "$kills" -gt 0 ] || wrong 'no program was killed'
[ "$(grep -c '"ok"' "$work/answers")" -eq 1500 ] || wrong "$(grep -vc '"ok"' "$work/answers") answers aren't as wanted"
on "$work/store" dump
[ "$(grep '^{"row":1,' "$work/said")" = '{"row":1,"table":"acct","value":85020}' ] || wrong "$(grep '^{"row":1,' "$work/said")"
on "$work/store" verify
[ "$(<"$work/said")" = 'serial 1500' ] || wrong "$(head -c 200 "$work/said")"
ended ", after $kills kills"
