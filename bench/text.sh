#!/usr/bin/env bash
# Procedure texts of up to 262,144 bytes, of several shapes: milliseconds for their tokens, tree, printed form and check,
# the best of so many runs, and for all four. Half the bytes of a shape should take half the time. PROGRAM is the program,
# where it is built already.
set -euo pipefail
cd "$(dirname "$0")/.."
. bench/program.bash
runs=${1:-5}
program=${PROGRAM:-$(built text)}
work=$(mktemp -d)
trap 'rm -rf "$work"' EXIT

# text SHAPE BYTES: a text of this shape, as long as fits into so many bytes.
text() {
    awk -v shape="$1" -v most="$2" '
        function put(piece) { printf "%s", piece; size += length(piece) }
        function times(piece, count,   text) { text = ""; while (count-- > 0) text = text piece; return text }
        BEGIN {
            head = tail = ""
            if (shape == "statements") { head = "proc p(a) {\n"; tail = "reply a; }\n" }
            else if (shape ~ /^(chains|minuses|denials|texts|parentheses|nested)$/) { head = "proc p(a){"; tail = "reply a;}" }
            put(head)
            sum = "1" times(" + a", 64)
            if (shape == "chains") piece = "let a=a" times("+a", 64) ";"
            else if (shape == "minuses") piece = "let a=" times("-", 64) "a;"
            else if (shape == "denials") piece = "let a=" times("not ", 64) "a;"
            else if (shape == "texts") piece = "let a=\"\"" times("+\"\"", 64) ";"
            else if (shape == "parentheses") piece = "let a=" times("(", 31) "a" times(")", 31) ";"
            else if (shape == "nested") piece = times("if a{", 31) times("}", 31)
            for (number = 1; ; number++) {
                if (shape == "tables") piece = sprintf("table t%05d;\n", number)
                else if (shape == "procedures") piece = sprintf("proc p%05d(a, b) { reply a - b; }\n", number)
                else if (shape == "statements") piece = sprintf("let v%05d = a * %d;\n", number, number)
                else if (shape == "expressions") piece = sprintf("proc p%05d(a) { reply %s; }\n", number, sum)
                else if (shape == "comments") piece = sprintf("# comment %05d\n", number)
                if (size + length(piece) + length(tail) > most) break
                put(piece)
            }
            put(tail)
        }'
}

# times SHAPE BYTES: the best times of each step.
times() {
    text "$1" "$2" >"$work/text"
    for _ in $(seq "$runs"); do
        "$program" <"$work/text" 2>"$work/times" >/dev/null || { echo "$1 is refused" >&2; exit 1; }
        cat "$work/times"
    done | awk -v shape="$1" -v bytes="$(wc -c <"$work/text")" '
        !($1 in best) || $2 < best[$1] { best[$1] = $2 }
        END { printf "%-12s %7d %9.2f %9.2f %9.2f %9.2f %9.2f\n", shape, bytes,
            best["tokens"] / 1e6, best["tree"] / 1e6, best["printed"] / 1e6, best["check"] / 1e6,
            (best["tokens"] + best["tree"] + best["printed"] + best["check"]) / 1e6 }'
}

printf '%-12s %7s %9s %9s %9s %9s %9s\n' shape bytes tokens tree printed check all
for shape in tables procedures statements expressions chains minuses denials parentheses texts nested comments; do
    times "$shape" 131072
    times "$shape" 262144
done
