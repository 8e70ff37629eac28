#!/usr/bin/env bash
# The built program on real files: its answers, statuses and lines on the error stream.
set -u
cd "$(dirname "$0")/.." || exit 2
program=${1:-$PWD/crates/coco/out/coco}
work=$(mktemp -d) || exit 2
trap 'rm -rf "$work"' EXIT
failed=0

# expect NAME STATUS ERROR_LINE: compares the last run with what is wanted; the answers wanted are in $work/wanted.
expect() {
    if [ "$status" -ne "$2" ]; then
        echo "$1: status $status, wanted $2"
        failed=1
    fi
    if ! cmp -s "$work/said" "$work/wanted"; then
        echo "$1: the answers differ"
        diff "$work/said" "$work/wanted" | head -5
        failed=1
    fi
    if [ "$(cat "$work/errors")" != "$3" ]; then
        echo "$1: wrong line on the error stream"
        failed=1
    fi
}

# new: a store without epochs.
new() {
    rm -rf "$work/store"
    "$program" "$work/store" init </dev/null
}

# run INPUT WORD..: runs the program on a file.
run() {
    local input=$1
    shift
    "$program" "$work/store" "$@" <"$input" >"$work/said" 2>"$work/errors"
    status=$?
}

# unsaid INPUT WORD..: the same where no byte of the answers can be written.
unsaid() {
    local input=$1
    shift
    "$program" "$work/store" "$@" <"$input" 2>"$work/errors" >/dev/full
    status=$?
    : >"$work/said"
}

# copied: the store's files as they are now.
copied() {
    rm -rf "$work/copy"
    cp -r "$work/store" "$work/copy"
}

# unchanged NAME: each of them still has the same bytes.
unchanged() {
    if ! diff -r "$work/store" "$work/copy"; then
        echo "$1: the files have changed"
        failed=1
    fi
}

if [ ! -x "$program" ]; then
    echo "$program isn't built: run rt ci first"
    exit 2
fi

: >"$work/wanted"
run examples/builtin/requests.jsonl run
expect 'no store' 7 'coco: not a store: file 0 at byte 0'
printf 'proc f() { refuse 1 }' >"$work/text"
run "$work/text" init
expect 'a wrong byte' 9 'coco: procedures refused: unexpected at byte 20'
printf 'proc f() { let x = 1; }' >"$work/text"
run "$work/text" init
expect 'no reply' 9 'coco: procedures refused: no reply at item 1 statement 0'
new
run /dev/null init
expect 'a store that is there' 10 'coco: already there: file 0 has 39 bytes'
cp examples/builtin/replies.jsonl "$work/wanted"
run examples/builtin/requests.jsonl run --epoch 4
expect 'the example' 0 ''
run examples/builtin/requests.jsonl run --epoch 4
expect 'the example again' 0 ''
printf 'serial 9\n' >"$work/wanted"
run /dev/null verify
expect 'the verdict' 0 ''

: >"$work/wanted"
run /dev/null run
expect 'no input' 0 ''
run examples/builtin/requests.jsonl
expect 'no command' 1 'coco: bad command line'
run examples/builtin/requests.jsonl run --epoch 1025
expect 'an epoch of 1,025 lines' 1 'coco: bad command line'
run examples/builtin/requests.jsonl run --epoch 0
expect 'an epoch of no line' 1 'coco: bad command line'
"$program" "$work/store" run --epoch 0 <examples/builtin/requests.jsonl >"$work/said" 2>/dev/full
status=$?
: >"$work/errors"
expect 'an epoch of no line, and an error stream that is full' 1 ''
run examples/builtin/requests.jsonl run --
expect 'no word behind two hyphens' 1 'coco: bad command line'
run /dev/null dump --epoch 1
expect 'an epoch for a dump' 1 'coco: bad command line'
run /dev/null init --nodes 9
expect 'a store of nine nodes' 1 'coco: bad command line'
run /dev/null init --nodes 3 --copies 3
expect 'as many copies as nodes' 1 'coco: bad command line'
run examples/builtin/requests.jsonl run $'\xff'
expect 'a word that is no text' 1 'coco: bad command line'
run "$work" run
expect 'an input that can not be read' 2 'coco: read fault'

unsaid examples/builtin/requests.jsonl run
expect 'an output that is full' 3 'coco: reply stream fault'

new
copied
run /dev/null run
expect 'no input on a new store' 0 ''
unchanged 'no input on a new store'

# A request whose answer was not taken is committed all the same, once: it is answered when it is sent again.
echo '{"args":[5,70],"call":"put","id":1}' >"$work/lines"
unsaid "$work/lines" run --epoch 1
expect 'a new request, and an output that is full' 3 'coco: reply stream fault'
copied
echo '{"epoch":1,"id":1,"ok":70,"time":1}' >"$work/wanted"
run "$work/lines" run --epoch 1
expect 'that request again' 0 ''
unchanged 'that request again'

{
    head -c 65537 /dev/zero | tr '\0' x
    echo
    head -c 65536 /dev/zero | tr '\0' x
    echo
    printf '{"args":[5,70],"call":"put","id":1}'
} >"$work/lines"
printf '%s\n' '{"error":"long","line":1}' '{"error":"json","line":2}' '{"epoch":1,"id":1,"ok":70,"time":1}' >"$work/wanted"
new
run "$work/lines" run
expect 'long lines, and a last line without its end' 0 ''

[ "$failed" -eq 0 ] && echo 'all as wanted'
exit "$failed"
