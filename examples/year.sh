#!/usr/bin/env bash
# A year of a bank, and what is done at its end: the lines of each day were an epoch, the replies of the last thirty days
# alone are kept from then on, and the store is made small. It says what the files take and how long the store takes to
# open, before and after; and what is answered then to the last line of the year and to the first, which come once more.
# It takes the program that COCO names, or the proved one. The word is how many lines a day has, at most 1,024.
# usage: examples/year.sh [LINES]
set -euo pipefail
cd "$(dirname "$0")"
program=${COCO:-$PWD/../crates/coco/out/coco}
lines=${1:-1000}
[ -x "$program" ] || { echo "$program is not built: bash build.sh does that" >&2; exit 2; }
work=$(mktemp -d)
trap 'rm -rf "$work"' EXIT
store=$work/store

# On the first day each line opens an account, and on every other day 1 goes from each account to the next.
awk -v lines="$lines" 'BEGIN {
    for (id = 1; id <= 365 * lines; id++) {
        account = (id - 1) % lines + 1
        if (id <= lines) printf "{\"args\":[%d,1000],\"call\":\"open\",\"id\":%d}\n", account, id
        else printf "{\"args\":[%d,%d,1],\"call\":\"move\",\"id\":%d}\n", account, account % lines + 1, id
    }
}' >"$work/year"

# rows: what stands on the accounts.
rows() { "$program" "$store" dump | grep '^{"row"'; }

# told WHEN: what the files take, and how long a run without lines takes, which opens the store and ends.
told() {
    local began=${EPOCHREALTIME/[.,]/}
    "$program" "$store" run </dev/null
    echo "$1: $(cat "$store"/*.coco | wc -c) bytes, opened in $(((${EPOCHREALTIME/[.,]/} - began) / 1000)) milliseconds"
}

"$program" "$store" init <bank/procedures.coco
"$program" "$store" run --epoch "$lines" <"$work/year" >"$work/answers"
rows >"$work/rows"
told 'at the end of the year'

# The keep number makes the difference: without one all replies go into the new files. An epoch was a day, so 30 are kept.
bash compact.sh "$program" "$store" 30
told 'made small'

# No account has changed. A line whose reply is kept gets it again, and one whose reply is forgotten doesn't run again.
rows | cmp - "$work/rows"
{
    tail -n 1 "$work/year"
    head -n 1 "$work/year"
} | "$program" "$store" run
