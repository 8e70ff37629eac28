#!/usr/bin/env bash
# A store asked as it was at the end of an epoch, on real files: the answers at each epoch, the classes of lines, several
# readers, a compacted store, what is refused; and that no file changes.
. "$(dirname "$0")/store.bash"

# says NAME TEXT: what the last run said.
says() {
    [ "$(<"$work/said")" = "$2" ] || wrong "$1: it said $(head -c 300 "$work/said")"
}

# asks NAME STATUS ERRORS SAID WORD..: so a query of the file $input ends, and the store's files stay as they are.
asks() {
    rm -rf "$work/before"
    cp -r "$work/store" "$work/before"
    on "$work/store" query "${@:5}"
    ends "$1" "$2" "$3"
    says "$1" "$4"
    diff -r "$work/store" "$work/before" || wrong "$1: a file has changed"
}

for words in query 'query 2' 'query --readers 2' 'query --at 1099511627776' 'query --at 2 --readers 17'; do
    on "$work/absent" $words
    ends "$words" 1 'coco: bad command line'
done
on "$work/absent" query --at 0
ends 'no store' 7 'coco: not a store: file 0 at byte 0'
[ ! -e "$work/absent" ] || wrong 'query made a folder'

input=$work/lines
printf '%s\n' '{"args":[5,70],"call":"put","id":1}' '{"args":[5],"call":"get","id":2}' \
    '{"args":[5,71],"call":"put","id":3}' >"$input"
new "$work/store"
on "$work/store" run --epoch 1
ends 'three lines' 0
echo '{"args":[5],"call":"get","id":9}' >"$input"
asks 'at 0' 0 '' '{"epoch":0,"id":9,"ok":null,"time":0}' --at 0
asks 'at 1' 0 '' '{"epoch":1,"id":9,"ok":70,"time":0}' --at 1
asks 'at 2' 0 '' '{"epoch":2,"id":9,"ok":70,"time":0}' --at 2
asks 'at 3' 0 '' '{"epoch":3,"id":9,"ok":71,"time":0}' --at 3
asks 'at 4' 14 'coco: epoch 4 is not in 0 to 3' '' --at 4
asks 'at the greatest number' 14 'coco: epoch 1099511627775 is not in 0 to 3' '' --at 1099511627775
input=/dev/null
asks 'without a line' 0 '' '' --at 3

# The input isn't read where the epoch is none: a folder can't be read.
input=$work
asks 'an input that fails' 2 'coco: read fault' '' --at 3
asks 'an input that fails at no epoch' 14 'coco: epoch 4 is not in 0 to 3' '' --at 4

# Each class, a known id that comes twice with other calls, and calls on a snapshot and not.
input=$work/lines
{
    head -c 65537 /dev/zero | tr '\0' x
    printf '\n'
    cat <<'IN'
{
{"args":[5],"call":"get"}
{"args":[5],"call":"find","id":1}
{"args":[],"call":"get","id":1}
{"args":[5,1],"call":"put","id":1}
{"args":[5,1],"call":"add","id":1,"snapshot":true}
{"args":[5],"call":"get","id":1}
{"args":[6],"call":"get","id":1,"snapshot":true}
{"args":[-1],"call":"get","id":18446744073709551615}
IN
    printf '{"args":["five"],"call":"get","id":2}'
} >"$input"
classes='{"error":"long","line":1}
{"error":"json","line":2}
{"error":"shape","line":3}
{"error":"name","line":4}
{"error":"args","line":5}
{"error":"snapshot","line":6}
{"error":"snapshot","line":7}
{"epoch":2,"id":1,"ok":70,"time":0}
{"epoch":2,"id":1,"ok":null,"time":0}
{"epoch":2,"id":18446744073709551615,"refused":"bad row","time":0}
{"epoch":2,"id":2,"refused":"kind","time":0}'
asks 'each class' 0 '' "$classes" --at 2
asks 'each class by three readers' 0 '' "$classes" --readers 3 --at 2

# Nobody takes the answers.
"$program" "$work/store" query --at 2 <"$input" >/dev/full 2>"$work/errors"
status=$?
ends 'a full reply stream' 3 'coco: reply stream fault'

# Where the replies of old epochs are forgotten, these can be asked all the same; where they are left behind, they can't.
echo '{"args":[5],"call":"get","id":9}' >"$input"
on "$work/store" migrate --keep 1
ends 'a keep number' 0
asks 'at 2 with a keep number' 0 '' '{"epoch":2,"id":9,"ok":70,"time":0}' --at 2
on "$work/store" compact
ends 'compact' 0
asks 'at 3 after compact' 0 '' '{"epoch":3,"id":9,"ok":71,"time":0}' --at 3
asks 'at 2 after compact' 14 'coco: epoch 2 is not in 3 to 3' '' --at 2
echo '{"args":[5,72],"call":"put","id":4}' >"$input"
on "$work/store" run
ends 'a line more' 0
echo '{"args":[5],"call":"get","id":9}' >"$input"
asks 'at 3 after a line more' 0 '' '{"epoch":3,"id":9,"ok":71,"time":0}' --at 3
asks 'at 4 after a line more' 0 '' '{"epoch":4,"id":9,"ok":72,"time":0}' --at 4
asks 'at 2 after a line more' 14 'coco: epoch 2 is not in 3 to 4' '' --at 2

# Many lines on several partitions, of which some are added to later: the answers at each epoch, by one reader and by many,
# are those that a store has which has gone no further.
adds 400 >"$work/adds"
for row in $(seq 0 2499); do echo "{\"args\":[$((row % 60))],\"call\":\"get\",\"id\":$row}"; done >"$work/gets"
new "$work/store" --partitions 7
input=$work/adds
on "$work/store" run --epoch 100
ends 'many lines' 0
new "$work/early" --partitions 7
head -n 200 "$work/adds" >"$work/lines"
input=$work/lines
on "$work/early" run --epoch 100
ends 'half of them' 0
input=$work/gets
for at in 1 2 3 4; do
    on "$work/store" query --at "$at"
    ends "2,500 lines at $at" 0
    cp "$work/said" "$work/one"
    [ "$(wc -l <"$work/one")" -eq 2500 ] || wrong "$(wc -l <"$work/one") answers of 2,500 lines"
    for readers in 2 4 16; do
        on "$work/store" query --at "$at" --readers "$readers"
        ends "$readers readers at $at" 0
        cmp -s "$work/said" "$work/one" || wrong "the answers of $readers readers at $at"
    done
    if [ "$at" -eq 2 ]; then
        on "$work/early" query --at 2
        cmp -s "$work/said" "$work/one" || wrong 'the answers of the store that has gone no further'
    fi
done

# The example.
COCO=$program bash examples/audit.sh >"$work/said" || wrong 'the audit'
cat examples/audit/january_answers.jsonl examples/audit/february_answers.jsonl | cmp -s - "$work/said" || wrong 'the answers of the audit'
ended
