#!/usr/bin/env bash
# Good and bad lines drawn from fixed seeds: the built program must answer them as a small model does.
set -u
cd "$(dirname "$0")/.." || exit 2
program=${1:-$PWD/crates/coco/out/coco}
if [ ! -x "$program" ]; then
    echo "$program isn't built: run rt ci first"
    exit 2
fi
work=$(mktemp -d) || exit 2
trap 'rm -rf "$work"' EXIT
failed=0
declare -A rows call_of text_of
texts=() classes=() ids=() calls=()

greatest=9223372036854775807
bad_classes=(json json shape shape name args args snapshot)
bad_lines=('' '{' '[]' '{"args":[5],"call":"get","id":1.0}' '{"args":[5],"call":"got","id":3}'
    '{"args":[],"call":"get","id":3}' '{"args":[[]],"call":"get","id":3}' '{"args":[1,2],"call":"put","id":3,"snapshot":true}')

# Draws a line: its $text, and its error $class, or its $id and what it calls, as 'NAME ROW SNAPSHOT VALUE'.
draw() {
    class='' id='' call=''
    case $((RANDOM % 8)),${#texts[@]} in
    0,*) draw_bad ;;
    1,0) draw_good ;;
    1,*) draw_again ;;
    *) draw_good ;;
    esac
    texts+=("$text") classes+=("$class") ids+=("$id") calls+=("$call")
}

draw_bad() {
    local place=$((RANDOM % ${#bad_lines[@]}))
    class=${bad_classes[place]} text=${bad_lines[place]}
}

draw_again() {
    local place=$((RANDOM % ${#texts[@]}))
    text=${texts[place]} class=${classes[place]} id=${ids[place]} call=${calls[place]}
}

draw_good() {
    local names=(get put add) values=("$((RANDOM - 16384))" "$((RANDOM % 3))" null '"word"' "$greatest" "-$greatest")
    local name=${names[RANDOM % 3]} row=$((RANDOM % 6 - 1)) value=${values[RANDOM % 6]} snapshot=false last=''
    id=$((RANDOM % 1000))
    [ $((RANDOM % 40)) -eq 0 ] && row='"word"'
    local args="[$row,$value]"
    if [ "$name" = get ]; then
        args="[$row]" value=''
        [ $((RANDOM % 2)) -eq 0 ] && snapshot=true
    fi
    [ "$snapshot" = true ] || [ $((RANDOM % 2)) -eq 0 ] && last=",\"snapshot\":$snapshot"
    call="$name $row $snapshot $value"
    if [ $((RANDOM % 3)) -eq 0 ]; then
        text=" {\"id\" :$id$last, \"call\":\"$name\" ,\"args\": $args } "
    else
        text="{\"args\":$args,\"call\":\"$name\",\"id\":$id$last}"
    fi
}

# add NOW NUMBER: the sum in $sum, or why there is none in $cause.
add() {
    sum='' cause=kind
    case $1,$2 in *null* | *word*) return ;; esac
    sum=$(($1 + $2)) cause=''
    if { [ "$2" -gt 0 ] && [ "$sum" -lt "$1" ]; } || { [ "$2" -lt 0 ] && [ "$sum" -gt "$1" ]; }; then
        cause=overflow
    fi
}

# execute NAME ROW VALUE: runs a call on the rows: $ok or why it is refused in $cause.
execute() {
    cause='' ok=''
    case $2 in
    *word*) cause=kind ;;
    -*) cause='bad row' ;;
    esac
    [ -z "$cause" ] || return
    ok=${rows[$2]:-null}
    case $1 in
    put) ok=$3 ;;
    add)
        [ "$ok" = null ] && ok=0
        add "$ok" "$3"
        ok=$sum
        ;;
    esac
    [ "$1" = get ] || [ -n "$cause" ] || rows[$2]=$ok
}

# stamp NAME ROW: the logical time of the call that was run last, in $time: above the last write of a row that it read,
# and above the last read of a row that it wrote.
stamp() {
    time=1
    case $2 in *word* | -*) return ;; esac
    if [ "$1" = get ] || [ -n "$cause" ]; then
        time=$((${written[$2]-0} + 1))
        [ "${valid[$2]-0}" -ge "$time" ] || valid[$2]=$time
    else
        time=$((${valid[$2]-0} + 1))
        written[$2]=$time valid[$2]=$time
    fi
}

# commit ID: runs a new request, and keeps the text of its answer.
commit() {
    local name row value snapshot time=0
    IFS=' ' read -r name row snapshot value <<<"${call_of[$1]}"
    execute "$name" "$row" "$value"
    [ "$snapshot" = true ] || stamp "$name" "$row"
    if [ -n "$cause" ]; then
        text_of[$1]="{\"epoch\":$epoch,\"id\":$1,\"refused\":\"$cause\",\"time\":$time}"
    else
        text_of[$1]="{\"epoch\":$epoch,\"id\":$1,\"ok\":$ok,\"time\":$time}"
    fi
}

# Draws a batch of lines, and puts them and their answers behind the others.
batch() {
    local answers=() snapshots=() others=() answer
    local -A written=() valid=()
    for ((i = 0; i < size; i++)); do
        draw
        number=$((number + 1))
        printf '%s\n' "$text" >&3
        if [ -n "$class" ]; then
            answers+=("{\"error\":\"$class\",\"line\":$number}")
            continue
        fi
        if [ "${call_of[$id]-$call}" != "$call" ]; then
            answers+=("{\"error\":\"reused\",\"line\":$number}")
            continue
        fi
        answers+=("$id")
        [ -n "${call_of[$id]-}" ] && continue
        call_of[$id]=$call
        case $call in
        *' true '*) snapshots+=("$id") ;;
        *) others+=("$id") ;;
        esac
    done
    [ $((${#snapshots[@]} + ${#others[@]})) -gt 0 ] && epoch=$((epoch + 1))
    for id in "${snapshots[@]}" "${others[@]}"; do commit "$id"; done
    for answer in "${answers[@]}"; do
        case $answer in
        \{*) printf '%s\n' "$answer" >&4 ;;
        *) printf '%s\n' "${text_of[$answer]}" >&4 ;;
        esac
    done
}

echo "seed ${SEED:-1 2 3}"
for seed in ${SEED:-1 2 3}; do
    for size in 1 5 100 500; do
        RANDOM=$((seed * 1000 + size))
        rows=() call_of=() text_of=() texts=() classes=() ids=() calls=() epoch=0 number=0
        exec 3>"$work/lines" 4>"$work/wanted"
        while [ "$number" -lt 1000 ]; do batch; done
        exec 3>&- 4>&-
        rm -rf "$work/store"
        "$program" "$work/store" init </dev/null
        "$program" "$work/store" run --epoch "$size" <"$work/lines" >"$work/said"
        status=$?
        if [ "$status" -ne 0 ] || ! cmp -s "$work/said" "$work/wanted"; then
            printf 'seed %s, %s lines a batch: status %s\n' "$seed" "$size" "$status"
            diff "$work/said" "$work/wanted" | head -5
            failed=1
        fi
    done
done

[ "$failed" -eq 0 ] && echo 'all as wanted'
exit "$failed"
