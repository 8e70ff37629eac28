#!/usr/bin/env bash
# Checks a store whole, replies and rows: its requests run once more, one by one, in a new store, and both must then say the
# same. It changes nothing in the store. The new store is left where a third word says, else it goes; so this exports a
# store and imports it, too.
# usage: examples/recheck.sh PROGRAM STORE [NEW]      ends with 0 where all is as it should be
# A store that was compacted, or that keeps more than 1,048,576 requests, can't be checked so.
set -euo pipefail
program=$1 store=$2
work=$(mktemp -d)
trap 'rm -rf "$work"' EXIT
new=${3:-$work/new}

# told STORE: the Dones of a store without the numbers that another run may give them, and its rows.
told() {
    "$program" "$1" dump | python3 -c '
import json, sys
for line in sys.stdin:
    told = json.loads(line)
    told.pop("epoch", None), told.pop("time", None)
    print(json.dumps(told))'
}

layout() { python3 "$(dirname "$0")/layout.py" "$store/0.coco" "$1"; }
layout procedures | "$program" "$new" init --partitions "$(layout partitions)"
told "$store" >"$work/old"
python3 -c '
import json, sys
for line in sys.stdin:
    told = json.loads(line)
    if "id" in told: print(json.dumps({it: told[it] for it in ("args", "call", "id", "snapshot")}))' <"$work/old" |
    "$program" "$new" run --epoch 1 >"$work/answers"
told "$new" | diff "$work/old" - >"$work/differs" || {
    echo "the store differs from a run of its requests:"
    head -5 "$work/differs"
    exit 1
}
echo "$(grep -c '^{"args"' "$work/old" || true) requests and $(grep -c '^{"row"' "$work/old" || true) rows are those of a run"
