#!/usr/bin/env bash
# Epochs run by several workers over several partitions, killed at random moments and run again on the same lines: however
# the workers interleave, the history is serial, what was answered stands, and no money and no piece is lost or made. And
# money that goes round in whole runs, each line with its answer, on three nodes too.
. "$(dirname "$0")/store.bash"
draws

count=10000

# bank ACCOUNTS: accounts are opened with 1,000 each, and then money moves among them.
bank() {
    awk -v accounts="$1" -v count="$count" 'BEGIN {
        srand(accounts)
        for (id = 1; id <= count; id++) {
            if (id <= accounts) { printf "{\"args\":[%d,1000],\"call\":\"open\",\"id\":%d}\n", id, id; continue }
            from = int(rand() * accounts) + 1
            to = (from + int(rand() * (accounts - 1))) % accounts + 1
            printf "{\"args\":[%d,%d,%d],\"call\":\"move\",\"id\":%d}\n", from, to, int(rand() * 30) + 1, id
        }
    }'
    wanted=$(($1 * 1000))
}

# shop ARTICLES: every third line lays a piece of an article on a shelf, and the others order some pieces of one.
shop() {
    awk -v articles="$1" -v count="$count" 'BEGIN {
        srand(articles)
        for (id = 1; id <= count; id++) {
            article = int(rand() * articles)
            if (id % 3 == 1) printf "{\"args\":[%d,%d,5],\"call\":\"stock\",\"id\":%d}\n", article, int(rand() * 4), id
            else printf "{\"args\":[%d,%d,%d],\"call\":\"order\",\"id\":%d}\n", id, article, int(rand() * 6) + 1, id
        }
    }'
    wanted=$(((count + 2) / 3 * 5))
}

# sum: of all rows' values in the dump that was said last.
sum() {
    sed -n 's/^{"row":.*,"value":\(-\{0,1\}[0-9]*\)}$/\1/p' "$work/said" | awk '{ all += $1 } END { print all + 0 }'
}

# kept: what an earlier run answered is answered again, to the byte.
kept() {
    local whole
    whole=$(wc -l <"$work/told")
    cmp -s <(head -n "$whole" "$work/said") "$work/told" || wrong "$name: other answers behind a kill"
}

# measured: in $span how many microseconds a run takes that nothing disturbs. It has few epochs, so the others take longer.
measured() {
    local began
    input=$work/lines
    bank 50 >"$input"
    "$program" "$work/store" init --partitions 4 <examples/bank/procedures.coco || wrong 'init'
    began=${EPOCHREALTIME/[.,]/}
    on "$work/store" run --workers 4 --epoch 1000
    ends 'an undisturbed run' 0
    span=$((${EPOCHREALTIME/[.,]/} - began))
}

# killed: a run that is killed after up to the time that one takes, if it hasn't ended. In $cut_off is counted how many were
# at work on their answers.
cut_off=0
killed() {
    local delay=$(((RANDOM * 32768 + RANDOM) % span)) whole
    # A kill may come before the run's own redirection has emptied the file.
    : >"$work/said"
    "$program" "$work/store" run "${options[@]}" <"$input" >"$work/said" 2>"$work/errors" &
    local victim=$!
    sleep "$(printf '%d.%06d' $((delay / 1000000)) $((delay % 1000000)))"
    kill -9 "$victim" 2>/dev/null
    wait "$victim" 2>/dev/null
    sed -n '/}$/p' "$work/said" >"$work/whole"
    mv "$work/whole" "$work/said"
    whole=$(wc -l <"$work/said")
    [ "$whole" -gt 0 ] && [ "$whole" -lt "$count" ] && cut_off=$((cut_off + 1))
    if [ "$whole" -ge "$(wc -l <"$work/told")" ]; then
        kept
        cp "$work/said" "$work/told"
    fi
}

# one EXAMPLE ROWS WORKERS PARTITIONS ATTEMPTS SIZE: so many lines of the example on so many of its rows.
one() {
    name="$*"
    input=$work/lines
    "$1" "$2" >"$input"
    options=(--workers "$3" --attempts "$5" --epoch "$6")
    rm -rf "$work/store"
    "$program" "$work/store" init --partitions "$4" <"examples/$1/procedures.coco" || wrong "$name: init"
    : >"$work/told"
    for _ in 1 2 3; do killed; done
    on "$work/store" run "${options[@]}"
    ends "$name" 0
    kept
    [ "$(wc -l <"$work/said")" -eq "$count" ] || wrong "$name: the number of answers"
    on "$work/store" verify
    [ "$(<"$work/said")" = "serial $count" ] || wrong "$name: $(head -c 200 "$work/said")"
    on "$work/store" dump
    [ "$(sum)" -eq "$wanted" ] || wrong "$name: $(sum) in place of $wanted"
}

# same WHAT FILE WANTED: the two must have the same bytes.
same() {
    local differs
    differs=$(diff "$2" "$3") || wrong "$name, $1: $(head -5 <<<"$differs")"
}

# round WORKERS [WORD..]: on a store that `init` makes by these words, of three partitions, 20 accounts are opened with 1,000
# each, in one epoch and at one time, since no two lines touch one account. Then 200 moves go round, 50 in an epoch: each is
# answered at its place, and none is refused. Each account gives as often as it gets.
round() {
    name="round by $*"
    rm -rf "$work/store"
    "$program" "$work/store" init --partitions 3 "${@:2}" <<'TEXT' || wrong "$name: init"
table acct;
proc open(a, n) { put acct[a] = n; reply n; }
proc move(a, b, n) {
  if a == b { refuse 3; }
  let x = get acct[a];
  let y = get acct[b];
  if x == none or y == none { refuse 1; }
  if x < n { refuse 2; }
  put acct[a] = x - n;
  put acct[b] = y + n;
  reply x - n;
}
TEXT
    input=$work/lines
    seq 20 | awk '{ printf "{\"args\":[%d,1000],\"call\":\"open\",\"id\":%d}\n", $1, $1 }' >"$input"
    on "$work/store" run --workers "$1" --epoch 50
    ends "$name, accounts" 0
    same accounts "$work/said" <(seq 20 | awk '{ printf "{\"epoch\":1,\"id\":%d,\"ok\":1000,\"time\":1}\n", $1 }')
    seq 0 199 | awk '{
        from = 1 + $1 % 20
        to = 1 + ($1 + 7) % 20
        printf "{\"args\":[%d,%d,10],\"call\":\"move\",\"id\":%d}\n", from, to, 21 + $1
    }' >"$input"
    on "$work/store" run --workers "$1" --epoch 50
    ends "$name, moves" 0
    # What is left on the account, and when, is as the workers came to it.
    sed 's/,"ok":[0-9][0-9]*,"time":[0-9][0-9]*}$/,"ok"}/' "$work/said" >"$work/bare"
    same moves "$work/bare" <(seq 0 199 | awk '{ printf "{\"epoch\":%d,\"id\":%d,\"ok\"}\n", 2 + int($1 / 50), 21 + $1 }')
    on "$work/store" dump
    ends "$name, dump" 0
    [ "$(grep -vc '^{"row"' "$work/said")" -eq 220 ] || wrong "$name: the number of Dones"
    same rows <(grep '^{"row"' "$work/said") <(seq 20 | awk '{ printf "{\"row\":%d,\"table\":\"acct\",\"value\":1000}\n", $1 }')
    on "$work/store" verify
    ends "$name, verify" 0
    [ "$(<"$work/said")" = 'serial 220' ] || wrong "$name: $(head -c 200 "$work/said")"
}

# The first sixteen epochs of a run, and more where they go as fast, are run by all workers; in epochs of 1,000 all ten.
measured
one bank 1000 1 1 3 100
one bank 2 2 16 1 50
one bank 2 2 16 1 1000
one bank 50 4 4 3 1000
one bank 3 16 2 8 1000
one shop 40 1 7 1 200
one shop 1 2 1 3 25
one shop 1 2 1 3 1000
one shop 8 4 16 2 1000
one shop 300 16 5 8 500
[ "$cut_off" -gt 0 ] || wrong 'no kill met a run at work'
for workers in 1 2 4 16; do round "$workers"; done
round 4 --nodes 3 --copies 2
ended
