#!/usr/bin/env bash
# Bad lines on the built program: each gets exactly one answer, and changes nothing for those behind it.
set -u
cd "$(dirname "$0")/.." || exit 2
program=${1:-$PWD/crates/coco/out/coco}
if [ ! -x "$program" ]; then
    echo "$program isn't built: run rt ci first"
    exit 2
fi
work=$(mktemp -d) || exit 2
trap 'rm -rf "$work"' EXIT
failed=0
declare -A text_of

# begin SIZE: an input without lines, with so many lines in a batch.
begin() {
    size=$1 number=0 epoch=0 last=-1
    text_of=()
    : >"$work/lines"
    : >"$work/wanted"
}

# line ANSWER TEXT: one more line, and the answer that it must get.
line() {
    number=$((number + 1))
    printf '%s\n' "$2" >>"$work/lines"
    printf '%s\n' "$1" >>"$work/wanted"
}

# refused CLASS TEXT..: lines that must be refused so.
refused() {
    local class=$1 text
    shift
    for text; do
        line "{\"error\":\"$class\",\"line\":$((number + 1))}" "$text"
    done
}

# fresh ID VALUE TEXT ROW: a new request on a row that its epoch has only written so far, whose reply must be the value.
# Its logical time is the next one of the row.
fresh() {
    local batch=$((number / size))
    if [ "$batch" -ne "$last" ]; then
        epoch=$((epoch + 1)) times_of=() last=$batch
    fi
    times_of[$4]=$((${times_of[$4]-0} + 1))
    text_of[$1]="{\"epoch\":$epoch,\"id\":$1,\"ok\":$2,\"time\":${times_of[$4]}}"
    line "${text_of[$1]}" "$3"
}

# times COUNT BYTE: the byte again and again, in $repeated.
times() {
    repeated=$(head -c "$1" /dev/zero | tr '\0' "$2")
}

# compare NAME: on a new store the lines must get their answers.
compare() {
    local status
    rm -rf "$work/store"
    "$program" "$work/store" init </dev/null
    "$program" "$work/store" run --epoch "$size" <"$work/lines" >"$work/said" 2>"$work/errors"
    status=$?
    if [ "$status" -ne 0 ] || [ -s "$work/errors" ] || ! cmp -s "$work/said" "$work/wanted"; then
        printf '%s, %s lines a batch: status %s\n' "$1" "$size" "$status"
        diff "$work/said" "$work/wanted" | head -5
        failed=1
    fi
}

no_json() {
    refused json '' ' ' '{' '}' '[' '"' nul 'null null' '{} []' "{'id':1}" '{"id":1,}' $'\xff' $'"\xff"' $'\xef\xbb\xbf{}'
    refused json '{"args":["\ud800"],"call":"get","id":9}' '{"args":["\ude00"],"call":"get","id":9}' \
        '{"args":["\q"],"call":"get","id":9}' $'{"args":["\t"],"call":"get","id":9}' '{"args":[1e999],"call":"get","id":9}'
    times 200 '['
    refused json "$repeated"
    times 127 '['
    local front=$repeated
    times 127 ']'
    refused shape "$front$repeated"
    refused json "[$front$repeated]"
}

no_request() {
    refused shape '[]' '{}' null 5 '"get"' '[{"args":[5],"call":"get","id":9}]'
    refused shape '{"args":[5],"call":"get"}' '{"args":[5],"id":9}' '{"call":"get","id":9}'
    refused shape '{"args":[5],"call":"get","id":9,"id":null}' '{"args":[5],"call":"get","id":9,"epoch":1}'
    local id
    for id in -1 -0 1.0 1e3 18446744073709551616 true '"9"' null; do
        refused shape "{\"args\":[5],\"call\":\"get\",\"id\":$id}"
    done
}

no_call() {
    refused name '{"args":[],"call":"","id":9}' '{"args":[],"call":"GET","id":9}' '{"args":[5],"call":"delete","id":9}'
    refused args '{"args":[],"call":"get","id":9}' '{"args":[5,6],"call":"get","id":9}' '{"args":[5],"call":"put","id":9}'
    local argument
    for argument in true 1.0 1e3 -0 9223372036854775808 -9223372036854775809 '[]' '{}'; do
        refused args "{\"args\":[$argument],\"call\":\"get\",\"id\":9}"
    done
    times 257 x
    refused args "{\"args\":[\"$repeated\"],\"call\":\"get\",\"id\":9}"
    refused snapshot '{"args":[5,6],"call":"put","id":9,"snapshot":true}' '{"args":[5,6],"call":"add","id":9,"snapshot":true}'
}

for size in 1 2 7 100; do
    begin "$size"
    no_json
    fresh 1 70 '{"args":[5,70],"call":"put","id":1}' 5
    no_request
    fresh 18446744073709551615 70 '{"args":[5],"call":"get","id":18446744073709551615}' 5
    no_call
    refused reused '{"args":[5,71],"call":"put","id":1}' '{"args":[5],"call":"get","id":1}'
    line "${text_of[1]}" ' {"id":1 ,"snapshot":false,"call":"\u0070ut","args":[7],"args":[5, 70]} '
    times 256 x
    fresh 9 "\"$repeated\"" "{\"args\":[6,\"$repeated\"],\"call\":\"put\",\"id\":9}" 6
    fresh 0 '"\"\\/\b\f\n\r\t\u0000é😀"' '{"args":[7,"\u0022\u005c\/\u0008\u000c\u000a\u000d\u0009\u0000\u00e9\ud83d\ude00"],"call":"put","id":0}' 7
    compare 'bad lines'
done

# A line of 65,536 bytes is read, blanks among them, and a longer one isn't.
request='{"args":[5],"call":"get","id":1}'
for size in 1 100; do
    begin "$size"
    times $((65536 - ${#request})) ' '
    fresh 1 null "$request$repeated" 5
    refused long "$request$repeated "
    line "${text_of[1]}" "$request"$'\r'
    times 65536 x
    refused json "$repeated"
    refused long "${repeated}x" "$repeated"$'\r' "$repeated$repeated"
    compare 'long lines'
done

# A last line needs no line feed.
begin 1
compare 'an empty input'
begin 1
fresh 1 null "$request" 5
printf '%s' "$request" >"$work/lines"
compare 'a last request without its line feed'
begin 1
refused long "${repeated}x"
printf '%sx' "$repeated" >"$work/lines"
compare 'a last long line without its line feed'

[ "$failed" -eq 0 ] && echo 'all as wanted'
exit "$failed"
