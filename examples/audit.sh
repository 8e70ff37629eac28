#!/usr/bin/env bash
# An audit of the bank: what stood on its accounts at the end of each of two months, asked when both are over. It says the
# answers for January, and then those for February.
# It takes the program that COCO names, or the proved one.
set -euo pipefail
cd "$(dirname "$0")"
program=${COCO:-$PWD/../crates/coco/out/coco}
work=$(mktemp -d)
trap 'rm -rf "$work"' EXIT

# month NAME: runs its requests, and says the number of its last epoch.
month() {
    "$program" "$work/store" run --epoch 2 <"audit/$1.jsonl" >"$work/$1"
    sed -n 's/^{"epoch":\([0-9]*\),.*/\1/p' "$work/$1" | sort -n | tail -n 1
}

"$program" "$work/store" init <bank/procedures.coco
january=$(month january)
february=$(month february)
"$program" "$work/store" query --at "$january" --readers 2 <audit/questions.jsonl
"$program" "$work/store" query --at "$february" --readers 2 <audit/questions.jsonl
