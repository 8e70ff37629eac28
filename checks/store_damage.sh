#!/usr/bin/env bash
# Files of a store that are cut at each length, and whose bytes are changed one by one: the store is refused with a place
# in a file, or it opens. A changed reply is told.
. "$(dirname "$0")/store.bash"

# Three epochs, so three entries in each of the files 1 and 2, and the layout in file 0.
new "$work/whole"
printf '%s\n' '{"args":[5,70],"call":"put","id":1}' '{"args":[5,"a"],"call":"add","id":2}' '{"args":[6,"b"],"call":"put","id":3}' >"$work/lines"
input=$work/lines
on "$work/whole" run --epoch 1
ends 'three epochs' 0
input=/dev/null

# take FILE: its $bytes, as numbers, and the places of its $gates, of which the last is closed.
take() {
    local at=8
    number=$1
    mapfile -t bytes < <(od -An -v -tu1 -w1 "$work/whole/$1.coco" | tr -d ' ')
    gates=("$at")
    while [ "${bytes[at]}" -eq 1 ]; do
        at=$((at + 5 + ((bytes[at + 1] * 256 + bytes[at + 2]) * 256 + bytes[at + 3]) * 256 + bytes[at + 4]))
        gates+=("$at")
    done
}

# put BYTE..: the file that was taken has these bytes in the store.
put() {
    local escaped
    printf -v escaped '\\x%02x' "$@"
    printf '%b' "$escaped" >"$work/store/$number.coco"
}

# refused PLACE NAME: the store must be refused there.
refused() {
    on "$work/store" verify
    ends "$2" 7 "coco: not a store: file $number at byte $1"
}

# A file that ends before its last gate is refused at the gate of the entry that it cuts, or at its end in the header.
cut_at_each_length() {
    local length place gate
    : >"$work/store/$number.coco"
    refused 0 "file $number without a byte"
    for ((length = 1; length <= gates[-1]; length++)); do
        place=$length
        for gate in "${gates[@]}"; do
            [ "$gate" -lt "$length" ] && place=$gate
        done
        put "${bytes[@]:0:length}"
        refused "$place" "file $number of $length bytes"
    done
}

# A changed byte of a header is refused there. Another is refused somewhere, or makes other contents: a store that opens,
# whose replies may be no longer those of its calls.
change_each_byte() {
    local place bit said errors
    for ((place = 0; place < ${#bytes[@]}; place++)); do
        for bit in 1 128; do
            put "${bytes[@]:0:place}" $((bytes[place] ^ bit)) "${bytes[@]:place+1}"
            if [ "$place" -lt 8 ]; then
                refused "$place" "byte $place of file $number changed"
                continue
            fi
            on "$work/store" verify
            said=$(<"$work/said") errors=$(<"$work/errors")
            case $status,$said,$errors in
            '0,serial '[0-3], | '7,,coco: not a store: file '[0-9]*' at byte '[0-9]*) ;;
            '11,{"computed":{'*'},"id":'*',"kept":{'*'},"place":'[1-3]'},coco: not serial at '[1-3]) ;;
            *) wrong "byte $place of file $number changed: status $status, $said $errors" ;;
            esac
        done
    done
}

# verdict TEXT NAME: what the store is said to be.
verdict() {
    on "$work/store" verify
    [ "$status,$(<"$work/said")" = "0,$1" ] || wrong "$2"
}

for number in 0 1 2; do
    for check in cut_at_each_length change_each_byte; do
        rm -rf "$work/store"
        cp -r "$work/whole" "$work/store"
        take "$number"
        "$check"
    done
done

# A closed gate before the last entry takes it away: of the coordinator's file the last epoch, and of the node's file rows
# that a committed epoch needs.
rm -rf "$work/store"
cp -r "$work/whole" "$work/store"
verdict 'serial 3' 'the whole store'
take 2
put "${bytes[@]:0:gates[2]}" 0 "${bytes[@]:gates[2]+1}"
refused "${gates[2]}" 'rows of a committed epoch that are not there'
take 1
put "${bytes[@]:0:gates[2]}" 0 "${bytes[@]:gates[2]+1}"
verdict 'serial 2' 'a last epoch that was not committed'

# The last gate of a file may have any byte but 1, and what stands behind it has no meaning.
for number in 0 1 2; do
    take "$number"
    put "${bytes[@]:0:gates[-1]}" 255 1 0 0 0 1 255
done
verdict 'serial 3' 'bytes behind the last gates'

# Two epochs, and the reply of the second one, which stands before the last gate of file 1, becomes 71: it is told.
printf '%s\n' '{"args":[5,70],"call":"put","id":1}' '{"args":[5],"call":"get","id":2}' >"$work/lines"
new "$work/store"
input=$work/lines
on "$work/store" run --epoch 1
ends 'two epochs' 0
file=$work/store/1.coco
[ "$(tail -c 2 "$file" | od -An -tu1 | xargs)" = '70 0' ] || wrong 'the end of the second Done'
printf '\x47' | dd of="$file" bs=1 seek=$(($(stat -c %s "$file") - 2)) conv=notrunc status=none
on "$work/store" verify
ends 'a changed reply' 11 'coco: not serial at 2'
[ "$(<"$work/said")" = '{"computed":{"ok":70},"id":2,"kept":{"ok":71},"place":2}' ] || wrong "a changed reply: $(<"$work/said")"

# Two epochs of two Dones each, of which the second writes no row, and a table besides `main`.
rm -rf "$work/whole"
input=$work/lines
printf 'table t;' >"$input"
on "$work/whole" init
ends 'a store with a table' 0
printf '%s\n' '{"args":[5,70],"call":"put","id":1}' '{"args":[6,"b"],"call":"put","id":2}' \
    '{"args":[5,"a"],"call":"add","id":3}' '{"args":[5],"call":"get","id":4,"snapshot":true}' >"$input"
on "$work/whole" run --epoch 2
ends 'epochs of two Dones' 0
input=/dev/null
[ "$(stat -c %s "$work/whole/"?.coco | xargs)" = '47 205 94' ] || wrong 'the sizes of the files'

# Each line is a file, a byte of it with its new value, what the store then is, and what that byte is. A place is the first
# that can't stand: `1@74` is file 1 at byte 74. Of a store that opens it is what `verify` says.
while read -r number place value wanted name; do
    rm -rf "$work/store"
    cp -r "$work/whole" "$work/store"
    printf -v value '\\x%02x' "$value"
    printf '%b' "$value" | dd of="$work/store/$number.coco" bs=1 seek="$place" conv=notrunc status=none
    on "$work/store" verify
    case $wanted in
    *@*) wanted="7,,coco: not a store: file ${wanted%@*} at byte ${wanted#*@}" ;;
    *) wanted="0,serial $wanted," ;;
    esac
    said=$status,$(<"$work/said"),$(<"$work/errors")
    [ "$said" = "$wanted" ] || wrong "byte $place of file $number, $name: $said in place of $wanted"
done <<'TABLE'
0 7 88 0@7 the kind, where COCOLOGX begins
0 8 0 0@8 the gate of the only layout
0 9 4 0@8 a length above all
0 12 34 0@8 a length up to the end of the file
0 13 2 0@13 the tag
0 14 4 0@14 the version
0 16 65 0@16 the number of partitions
0 17 1 0@17 as many copies as nodes
0 21 0 0@18 no file of the coordinator
0 25 1 0@22 one file for coordinator and node
0 25 3 3@0 a file that is not there
0 33 1 1@14 the epoch of the base, which is that of the first epoch
0 37 9 0@34 a text that goes beyond the body
0 45 120 0@34 a text that is refused
0 46 1 0@46 the last gate
1 8 0 0 the gate of the first epoch
1 12 100 1@112 a length with a byte left over
1 13 3 1@13 the tag
1 16 1 1@14 an epoch above 2^40
1 21 0 1@14 epoch 0
1 21 2 1@118 the epoch, which the next one has too
1 25 1 1@74 a count with a Done left over
1 25 3 1@112 a count of a Done that is not there
1 33 0 4 the id
1 33 3 1@74 an id above that of the next Done, at the same time
1 35 0 1@26 a procedure of one parameter
1 35 3 1@26 a procedure that is not there
1 36 1 1@26 a snapshot call of a procedure that writes
1 36 2 1@36 a mark that is none
1 37 17 1@37 the number of arguments
1 38 3 1@38 the kind of a value
1 56 64 1@26 a time above 2^62
1 63 0 1@26 a time that is that of a snapshot call
1 63 2 1@74 a time above that of the next Done
1 64 2 1@64 the reply
1 81 4 1@130 an id that comes again
1 96 2 1@96 the length of a value
1 112 0 2 the gate of the second epoch
1 158 1 1@130 the time of a snapshot call
1 203 1 1@204 a user's number that is not there
1 203 6 1@203 the cause of a refusal
1 204 1 1@204 the last gate
2 8 0 2@8 the gate of the first epoch
2 13 2 2@13 the tag
2 21 0 2@14 epoch 0
2 21 2 2@81 the epoch, which the next one has too
2 25 1 2@53 a count with a row left over
2 27 1 2@53 a table above that of the next row
2 35 4 4 the row
2 35 7 2@53 a row above the next one
2 43 9 4 the time
2 44 3 2@44 the kind of a value
2 52 71 4 the value
2 54 2 2@53 a table that is not there
2 75 0 2@75 the gate of the second epoch
2 88 3 2@93 an epoch in place of a committed one
2 93 1 2@93 the last gate
TABLE

# A folder with nothing but a file 0 that begins like a log.
rm -rf "$work/store"
mkdir "$work/store"
number=0
printf 'COCOLOGX' >"$work/store/0.coco"
refused 7 'COCOLOGX'

# add_at PLACE NUMBER TEXT: these bytes stand in file NUMBER from that place on.
add_at() {
    printf '%b' "$3" | dd of="$work/store/$2.coco" bs=1 seek="$1" conv=notrunc status=none
}

# A store of two nodes: behind the first layout stands another one, which gives file 3 to a second node. That node has the
# odd rows, of which the two epochs wrote none, so its entries have no rows.
new "$work/store" --partitions 2
printf '%s\n' '{"args":[4,70],"call":"put","id":1}' '{"args":[6,"b"],"call":"put","id":2}' >"$work/lines"
input=$work/lines
on "$work/store" run --epoch 1
ends 'two epochs of even rows' 0
cp "$work/said" "$work/wanted"
add_at 38 0 '\x01\0\0\0\x1d\x01\x01\x02\x02\0\0\0\0\x01\0\0\0\x02\0\0\0\x03\0\0\0\0\0\0\0\0\0\0\0\0\0'
number=3
refused 0 'the file of the second node, which is not there'
add_at 0 3 'COCOLOG\x02\0'
refused 8 'no entry of the second node'
add_at 8 3 '\x01\0\0\0\x0d\x03\0\0\0\0\0\0\0\x01\0\0\0\0\0'
refused 26 'one entry of the second node'
add_at 26 3 '\x01\0\0\0\x0d\x03\0\0\0\0\0\0\0\x02\0\0\0\0\0'
verdict 'serial 2' 'a store of two nodes'
on "$work/store" run
ends 'a run of two nodes' 0
cmp -s "$work/said" "$work/wanted" || wrong 'the answers of two nodes'
number=2
add_at 35 2 '\x05'
refused 26 'a row of the other node'
add_at 35 2 '\x04'
add_at 72 0 '\x01\0\0\0\x19\x01\x01\x01\x02\0\0\0\0\x01\0\0\0\x02\0\0\0\0\0\0\0\0\0\0\0\0\0'
on "$work/store" run
ends 'a last layout of one node' 0
cmp -s "$work/said" "$work/wanted" || wrong 'the answers under a last layout of one node'
ended
