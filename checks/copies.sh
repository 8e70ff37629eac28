#!/usr/bin/env bash
# Copies of a store that is at work, one after another, are good stores of what had been answered by then; and each passes
# the check of replies and rows, which finds one byte of a row that was changed.
. "$(dirname "$0")/store.bash"

adds 60000 >"$work/lines"
input=$work/lines
new "$work/store" --partitions 3
: >"$work/answers"
"$program" "$work/store" run --epoch 20 <"$input" >"$work/answers" 2>"$work/errors" &
runner=$!
copies=0
while kill -0 "$runner" 2>/dev/null && [ "$copies" -lt 12 ]; do
    answered=$(wc -l <"$work/answers")
    rm -rf "$work/copy"
    bash examples/hot_copy.sh "$work/store" "$work/copy" || wrong 'a copy'
    on "$work/copy" verify
    ends 'the verdict on a copy' 0
    dones=$(sed -n 's/^serial //p' "$work/said")
    [ "${dones:-0}" -ge "$((answered / 10 * 8))" ] || wrong "$answered answers, $dones Dones in the copy"
    copies=$((copies + 1))
done
wait "$runner"
[ "$copies" -gt 1 ] || wrong 'no copy met a run at work'

input=/dev/null
new "$work/small" --partitions 2
on "$work/small" migrate --keep 1000
for store in small copy; do
    [ "$store" = copy ] || { adds 200 >"$work/few"; input=$work/few; on "$work/small" run --epoch 7; }
    bash examples/recheck.sh "$program" "$work/$store" >"$work/said" || wrong "$store: $(head -c 200 "$work/said")"
done

# The last byte of the one row of a store, in front of the last gate.
new "$work/one"
printf '{"args":[5,70],"call":"put","id":1}\n' >"$work/few"
input=$work/few
on "$work/one" run
printf '\x47' | dd of="$work/one/2.coco" bs=1 seek=52 conv=notrunc 2>/dev/null
on "$work/one" verify
[ "$(<"$work/said")" = 'serial 1' ] || wrong 'replies are looked at alone'
bash examples/recheck.sh "$program" "$work/one" >"$work/said" && wrong 'a changed byte of a row was not found'
grep -q '"value": 71' "$work/said" || wrong "the difference: $(head -c 200 "$work/said")"
ended
