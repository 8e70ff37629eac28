#!/usr/bin/env bash
# Faults around a store in a real folder: a folder that can't be written, another program on it, another reader, a
# second `init`, a late one, answers that nobody takes. Each ends in its status and its line, and loses and doubles nothing.
. "$(dirname "$0")/store.bash"
prepare

# Root may write wherever it likes, so it runs the program as somebody else.
read_only() {
    local user=()
    [ "$(id -u)" -eq 0 ] && user=(setpriv --reuid 65534 --regid 65534 --clear-groups)
    if ! "${user[@]}" true 2>"$work/errors"; then
        echo 'skipped: a read-only folder, since root keeps its rights here'
        return
    fi
    cp -r "$work/calm" "$work/shut"
    cp "$program" "$work/program"
    chmod a+rx "$work" "$work/program"
    chmod -R a=rX "$work/shut"
    for command in run compact 'migrate --keep 1' 'rebuild --node 0'; do
        "${user[@]}" "$work/program" "$work/shut" $command <"$work/lines" >"$work/said" 2>"$work/errors"
        status=$?
        ends "$command in a read-only folder" 4 'coco: disk fault'
    done
    for command in dump verify 'query --at 3'; do
        on "$work/calm" $command
        mv "$work/said" "$work/wanted_here"
        "${user[@]}" "$work/program" "$work/shut" $command <"$input" >"$work/said" 2>"$work/errors"
        status=$?
        ends "$command in a read-only folder" 0
        cmp "$work/said" "$work/wanted_here" || wrong "$command in a read-only folder says something else"
    done
    diff -r "$work/shut" "$work/calm" || wrong 'a read-only folder has changed'
    chmod -R u+w "$work/shut"
    whole "$work/shut"
    mkdir "$work/empty"
    chmod a=rX "$work/empty"
    for folder in "$work/empty" "$work/empty/new"; do
        "${user[@]}" "$work/program" "$folder" init </dev/null >"$work/said" 2>"$work/errors"
        status=$?
        ends "init of $folder, where nothing can be written" 4 'coco: disk fault'
    done
    [ -z "$(ls -A "$work/empty")" ] || wrong 'init has written into a read-only folder'
}

second_program() {
    local first
    new "$work/held"
    mkfifo "$work/pipe"
    "$program" "$work/held" run --epoch "$size" <"$work/pipe" >"$work/first" &
    first=$!
    exec 3>"$work/pipe"
    head -n "$size" "$work/lines" >&3
    while [ ! -s "$work/first" ] && kill -0 "$first" 2>"$work/errors"; do sleep 0.01; done
    for command in init run dump verify 'migrate --keep 1'; do
        on "$work/held" $command
        ends "$command beside another program" 4 'coco: disk fault'
    done
    exec 3>&-
    wait "$first" || wrong 'the first of two programs'
    whole "$work/held"
}

# Several may read a store at once, and nobody writes it meanwhile.
second_reader() {
    local store=$work/calm
    for command in dump verify; do
        flock -n -s "$store" "$program" "$store" $command >"$work/said" 2>"$work/errors"
        status=$?
        ends "$command beside a reader" 0
    done
    for command in run compact 'migrate --keep 1'; do
        flock -n -s "$store" "$program" "$store" $command <"$work/lines" >"$work/said" 2>"$work/errors"
        status=$?
        ends "$command beside a reader" 4 'coco: disk fault'
    done
}

second_init() {
    cp -r "$work/calm" "$work/twice"
    on "$work/twice" init
    ends 'a second init' 10 'coco: already there: file 0 has 39 bytes'
    diff -r "$work/twice" "$work/calm" || wrong 'a second init has changed the store'
}

# A folder that was made while an `init` read its text isn't that init's any more, whether none was there or another.
late_init() {
    local late before
    mkfifo "$work/text"
    for before in 'no folder' 'an empty folder'; do
        rm -rf "$work/raced" "$work/kept"
        [ "$before" = 'no folder' ] || mkdir "$work/raced"
        "$program" "$work/raced" init <"$work/text" >"$work/late" 2>&1 &
        late=$!
        exec 4>"$work/text"
        # More than a pipe holds: when it is all written, that init has looked at the folder.
        yes '' | head -n 200000 >&4
        new "$work/raced"
        on "$work/raced" run --epoch "$size"
        ends 'a run on a store that another init made' 0
        cp -r "$work/raced" "$work/kept"
        exec 4>&-
        wait "$late"
        status=$?
        cp "$work/late" "$work/errors"
        ends "an init that found $before, where another made a store" 4 'coco: disk fault'
        diff -r "$work/raced" "$work/kept" || wrong "an init that found $before has changed another's store"
    done
}

# Somebody takes a few of the answers and goes.
closed_answers() {
    new "$work/left"
    "$program" "$work/left" run --epoch "$size" <"$work/lines" 2>"$work/errors" | head -c 100 >"$work/said"
    status=${PIPESTATUS[0]}
    ends 'answers that nobody takes' 3 'coco: reply stream fault'
    whole "$work/left"
}

read_only
second_program
second_reader
second_init
late_init
closed_answers
ended
