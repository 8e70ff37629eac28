# What the checks of stores on real files share: the built program, a folder of their own, and how they end. They source
# it; it isn't run by itself.
set -u
cd "$(dirname "${BASH_SOURCE[0]}")/.." || exit 2
program=${1:-$PWD/crates/coco/out/coco}
if [ ! -x "$program" ]; then
    echo "$program isn't built: run rt ci first"
    exit 2
fi
work=$(mktemp -d) || exit 2
trap 'rm -rf "$work"' EXIT
failed=0

# draws: the check's random numbers come of one seed, which it says: that of the variable SEED, or a new one.
draws() {
    seed=${SEED:-$(od -An -tu2 -N 2 /dev/urandom | tr -d ' ')}
    RANDOM=$seed
    echo "seed $seed"
}

# wrong TEXT: something isn't as wanted.
wrong() {
    echo "$1"
    failed=1
}

# ended [TEXT]: the check is over.
ended() {
    [ "$failed" -eq 0 ] && echo "all as wanted${1-}"
    exit "$failed"
}

# on STORE WORD..: runs the program on the file $input: its $status, what it said, and its line on the error stream.
input=/dev/null
on() {
    local store=$1
    shift
    "$program" "$store" "$@" <"$input" >"$work/said" 2>"$work/errors"
    status=$?
}

# ends NAME STATUS [LINE]: the last run must have ended so.
ends() {
    if [ "$status" -ne "$2" ] || [ "$(<"$work/errors")" != "${3-}" ]; then
        wrong "$1: status $status, $(head -c 200 "$work/errors")"
    fi
}

# new STORE WORD..: a store without Dones.
new() {
    local input=/dev/null
    rm -rf "$1"
    on "$1" init "${@:2}"
    ends 'a new store' 0
}

# bare FILE: answers or Dones without the numbers of their epochs, of which one that was begun in vain uses one up.
bare() {
    sed 's/"epoch":[0-9]*,//' "$1"
}

# adds COUNT: so many lines, of each ten one that is no request and one that repeats an earlier one: eight new requests.
adds() {
    awk -v count="$1" 'BEGIN {
        for (id = 1; id <= count; id++) {
            if (id % 10 == 3) print "{"
            else {
                same = id % 10 == 7 ? id - 5 : id
                printf "{\"args\":[%d,%d],\"call\":\"add\",\"id\":%d}\n", same % 50, same, same
            }
        }
    }'
}

# prepare: lines for the check, and in $work/calm a store that an undisturbed run of them has left. Its answers are
# $work/wanted.
prepare() {
    size=10
    lines=300
    adds "$lines" >"$work/lines"
    input=$work/lines
    new "$work/calm"
    on "$work/calm" run --epoch "$size"
    ends 'an undisturbed run' 0
    bare "$work/said" >"$work/wanted"
}

# whole STORE: the next run on the same lines ends, and all is as it would have been.
whole() {
    local input=$work/lines
    on "$1" run --epoch "$size"
    ends 'the run behind a fault' 0
    bare "$work/said" | cmp -s - "$work/wanted" || wrong 'the answers behind a fault'
    on "$1" verify
    [ "$(<"$work/said")" = "serial $((lines / 10 * 8))" ] || wrong 'the verdict behind a fault'
}
