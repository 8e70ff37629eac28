#!/usr/bin/env bash
# Procedure texts through lexer, parser, printer and checker, as the program of tables puts them together: each
# text is refused at its place, or printed, and what is printed is printed again as it is.
set -u
cd "$(dirname "$0")/.." || exit 2
program=${1:-$PWD/crates/coco_tables/out/coco_tables}
[ -x "$program" ] || { echo "$program isn't built: run rt ci first"; exit 2; }
work=$(mktemp -d) || exit 2
trap 'rm -rf "$work"' EXIT
failed=0

# refused WANTED TEXT: the text must be refused so.
refused() {
    local said
    said=$(printf '%s' "$2" | "$program")
    if [ "$said" != "$1" ]; then
        printf 'of %.60s\n  wanted %s\n  said   %.200s\n' "$2" "$1" "$said"
        failed=1
    fi
}

# stays NAME: the text in $work/text must be taken, and its printed text must be printed as it is.
stays() {
    "$program" <"$work/text" >"$work/printed"
    if ! "$program" <"$work/printed" | cmp -s - "$work/printed" || [ "$(wc -l <"$work/printed")" -lt "$2" ]; then
        printf '%s: %s\n' "$1" "$(head -c 200 "$work/printed")"
        failed=1
    fi
}

# times COUNT TEXT: the text again and again, in $repeated.
times() {
    repeated=$(printf "%$1s" '' | sed "s/ /$2/g")
}

refused 'stray at byte 0' '!'
refused 'open text at byte 17' 'proc p() { reply "a'
refused 'unexpected at byte 0' ';'
refused 'unexpected at byte 20' 'proc p() { reply 1 +; }'
refused 'unexpected at byte 23' 'proc p() { reply 1 < 2 < 3; }'
refused 'unexpected at byte 21' 'proc p() { reply 1 + not 2; }'
refused 'unexpected at byte 5' 'proc get(r) { reply 1; }'
refused 'unexpected at byte 21' 'proc p() { reply 1; }}'
refused 'unexpected at byte 8' 'proc p()'
times 31 '('
refused 'unexpected at byte 48' "proc p() { reply $repeated"
times 32 '('
refused 'too deep at byte 48' "proc p() { reply $repeated"
times 64 '-'
refused 'unexpected at byte 81' "proc p() { reply $repeated"
times 65 '-'
refused 'too many at byte 81' "proc p() { reply $repeated"
times 16 'a,'
refused 'too many at byte 40' "proc p($repeated a"
refused 'range at byte 18' 'proc p() { refuse 65536; }'
refused 'unknown name at item 1 statement 1' 'proc p() { reply x; }'
refused 'unknown name at item 2 statement 2' 'table t; proc p() { if 1 { delete u[1]; } reply 1; }'
refused 'twice at item 1 statement 0' 'table main;'
refused 'twice at item 2 statement 0' 'table t; proc add(a) { reply a; }'
refused 'too many keys at item 1 statement 0' 'proc p() { repeat 64 as i { delete main[i]; } delete main[1]; reply 1; }'
refused 'repeat bound at item 1 statement 1' 'proc p() { repeat 0 as i { } reply 1; }'
refused 'repeat bound at item 1 statement 2' 'proc p() { repeat 64 as i { repeat 65 as j { } } reply 1; }'
refused 'no reply at item 1 statement 0' 'proc p(a) { if a { reply 1; } }'
times 262145 ' '
refused 'long at byte 262144' "$repeated"

cp examples/bank/procedures.coco "$work/text"
stays 'the bank' 20
printf 'proc p(a, b) { let x = not (a and not - b) or a < 2 * (b + 1) %% 3; refuse 65535; }' >"$work/text"
stays 'operators' 4
printf 'proc p() { reply "\\"\\\\ \xc3\xa9"; } table t; proc q(r) { repeat 2 as i { put t[i] = none; } reply 007; }' >"$work/text"
stays 'texts and numbers' 9
printf '# nothing' >"$work/text"
stays 'a comment' 0

[ "$failed" -eq 0 ] && echo 'all as wanted'
exit "$failed"
