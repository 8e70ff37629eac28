#!/usr/bin/env bash
# Makes a store small, at the end of a year, say, and frees what that leaves on the disk: the files that its last layout
# doesn't name, which nobody reads. With a number, the store keeps the replies of its last so many epochs alone from now on.
# It wants nobody at work on the store.
# usage: examples/compact.sh PROGRAM STORE [EPOCHS]
set -euo pipefail
program=$1 store=$2 keep=${3-}
bytes() { cat "$store"/*.coco | wc -c; }
before=$(bytes)
[ -z "$keep" ] || "$program" "$store" migrate --keep "$keep"
"$program" "$store" compact
# Under the folder's lock no other program can give a number that is free to a file of its own.
exec 9<"$store"
flock -n 9 || { echo "another program has $store: nothing was removed" >&2; exit 1; }
named=" 0 $(python3 "$(dirname "$0")/layout.py" "$store/0.coco" files) "
for file in "$store"/*.coco; do
    case $named in
        *" $(basename "$file" .coco) "*) ;;
        *) rm "$file" ;;
    esac
done
sync "$store"
echo "$before bytes were $(bytes)"
