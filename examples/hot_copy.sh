#!/usr/bin/env bash
# Copies a store while a program is at work on it. The copy is a good store of all epochs that were answered before the copy
# began: what is committed stands in the nodes' files before it stands in the coordinator's, so of a coordinator's file that
# was copied first the nodes' files, copied later, lack nothing; and what they have more was never committed in the copy.
# An entry counts once its gate is open, and that is written last, so one that was half written isn't there.
# No `compact`, `rebuild` or `migrate` may run meanwhile.
# usage: examples/hot_copy.sh STORE COPY
set -euo pipefail
store=$1 copy=$2
mkdir "$copy"
cp "$store/0.coco" "$copy/"
for number in $(python3 "$(dirname "$0")/layout.py" "$copy/0.coco" files); do
    cp "$store/$number.coco" "$copy/"
done
sync "$copy"/*.coco "$copy"
