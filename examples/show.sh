#!/usr/bin/env bash
# Runs an example, the bank if none is named, on a new store: says its answers, and then the rows that they left.
# It takes the program that COCO names, or the proved one where that is built. Else the answers come of a run that isn't
# proved, which takes two or three minutes to build.
set -euo pipefail
cd "$(dirname "$0")"
example=$PWD/${1:-bank}
program=${COCO:-$PWD/../crates/coco/out/coco}
store=$(mktemp -d)
trap 'rm -rf "$store"' EXIT
if [ ! -x "$program" ]; then
    echo 'The proved program is not built (bash build.sh does that). This run is of the same text, unproved: two or three minutes.' >&2
    python3 layout.py --new "$example/procedures.coco" "$store"
    cd ../crates/coco
    files=()
    for number in 0 1 2; do files+=(--data "st/$number.coco=$store/$number.coco"); done
    exec rt try "${files[@]}" -- st run --epoch 4 <"$example/requests.jsonl"
fi
"$program" "$store" init <"$example/procedures.coco"
"$program" "$store" run --epoch 4 <"$example/requests.jsonl"
"$program" "$store" dump | grep '^{"row"'
