#!/usr/bin/env bash
# A bank in a store of three nodes, of which one loses its file. Each node has a file of its own; with two copies of each
# partition every account stands in all three, so that any one of them can be made again. It says what it does, and what
# each command answers. All nodes run in one process, on one machine: what they guard against is that a file is lost.
# It takes the program that COCO names, or the proved one.
set -euo pipefail
cd "$(dirname "$0")"
program=${COCO:-$PWD/../crates/coco/out/coco}
[ -x "$program" ] || { echo "$program is not built: bash build.sh does that" >&2; exit 2; }
work=$(mktemp -d)
trap 'rm -rf "$work"' EXIT

# does WORD..: says a command on the store, and then what it answers. A status other than 0 is said too.
does() {
    local status=0
    echo "coco store $*"
    "$program" "$work/store" "$@" 2>&1 || status=$?
    [ "$status" -eq 0 ] || echo "status $status"
}

# Partition p has its primary on node p, and its copies on the two others.
does init --nodes 3 --partitions 3 --copies 2 <bank/procedures.coco

# No line and no answer says how many nodes there are: these are the answers of a store of one node.
does run --epoch 4 <bank/requests.jsonl

# File 0 has the layouts and file 1 is the coordinator's; files 2, 3 and 4 are those of nodes 0, 1 and 2. Node 1 loses its.
echo 'rm store/3.coco'
rm "$work/store/3.coco"

# A store that lacks a file is refused: nothing is answered, and no file changes. The line names the file.
does run --epoch 4 <bank/requests.jsonl

# Where in this list the file stands says whose it is: behind the coordinator's come those of the nodes, from node 0 on.
echo 'python3 layout.py store/0.coco files'
python3 layout.py "$work/store/0.coco" files

# Node 1 gets a new file, made of the copies that the next nodes hold. Its number is the least that was free.
does rebuild --node 1
echo 'python3 layout.py store/0.coco files'
python3 layout.py "$work/store/0.coco" files

# All is as before: the same lines get their first answers, and each reply is that of a serial run.
does run --epoch 4 <bank/requests.jsonl
does verify

# Nor does it show what becomes of the letters that the nodes send each other: with --disturb the net loses some, repeats some
# and turns their order round, as the number has it. Epochs that are given up for that are tried again.
echo 'rm -r store'
rm -r "$work/store"
does init --nodes 3 --partitions 3 --copies 2 <bank/procedures.coco
does run --epoch 4 --disturb 5 <bank/requests.jsonl
does verify
