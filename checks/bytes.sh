#!/usr/bin/env bash
# The files of the worked store in docs/FORMATS.md, byte by byte.
. "$(dirname "$0")/store.bash"

new "$work/store"
echo '{"args":[5,70],"call":"put","id":1}' >"$work/lines"
input=$work/lines
on "$work/store" run
ends 'one line' 0
for file in 0 1 2; do
    there=$(od -An -v -tx1 "$work/store/$file.coco" | tr -d ' \n')
    wanted=$(sed -n "s/^$file\.coco  434f/434f/p" docs/FORMATS.md | tr -d ' \n')
    [ -n "$wanted" ] && [ "$there" = "$wanted" ] || wrong "file $file has $there"
done
ended
