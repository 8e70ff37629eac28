#!/usr/bin/env bash
# 1,000,000 put and add lines over 1,000 rows through the built program, on new stores on a RAM disk: requests per
# second, processor time per request, peak memory, and the cost of the last tenth beside that of the first. Each is of
# the best of five runs. Words: the program, how many lines. RAM is the folder.
set -eu
cd "$(dirname "$0")/.."
program=${1:-$PWD/crates/coco/out/coco}
lines=${2:-1000000}
work=$(mktemp -d -p "${RAM:-/dev/shm}")
trap 'rm -rf "$work"' EXIT

# Each row is put once and then added to.
awk -v lines="$lines" 'BEGIN {
    for (id = 1; id <= lines; id++) {
        row = id % 1000
        if (id <= 1000) printf "{\"args\":[%d,%d],\"call\":\"put\",\"id\":%d}\n", row, id, id
        else printf "{\"args\":[%d,%d],\"call\":\"add\",\"id\":%d}\n", row, id % 7, id
    }
}' >"$work/lines"

# measure LINES: runs the first so many lines five times; gives seconds of the clock and of the processor, and KiB
# at most, of the run that took least of the processor.
measure() {
    head -n "$1" "$work/lines" >"$work/input"
    python3 - "$program" "$work" <<'P'
import os, shutil, subprocess, sys, time
program, work = sys.argv[1:]
store = f"{work}/store"
streams = [(os.POSIX_SPAWN_OPEN, 0, f"{work}/input", os.O_RDONLY, 0),
           (os.POSIX_SPAWN_OPEN, 1, f"{work}/said", os.O_WRONLY | os.O_CREAT | os.O_TRUNC, 0o600)]
def run():
    shutil.rmtree(store, ignore_errors=True)
    subprocess.run([program, store, "init"], stdin=subprocess.DEVNULL, check=True)
    began = time.monotonic()
    child = os.posix_spawn(program, [program, store, "run"], os.environ, file_actions=streams)
    _, status, used = os.wait4(child, 0)
    if status != 0:
        sys.exit(1)
    return used.ru_utime + used.ru_stime, time.monotonic() - began, used.ru_maxrss

processor, clock, memory = min(run() for _ in range(5))
print(clock, processor, memory)
P
}

read -r _ first _ < <(measure $((lines / 10)))
read -r _ before _ < <(measure $((lines / 10 * 9)))
read -r clock processor memory < <(measure "$lines")
[ "$(grep -c '"ok"' "$work/said")" -eq "$lines" ]
awk -v lines="$lines" -v first="$first" -v before="$before" -v clock="$clock" -v processor="$processor" -v memory="$memory" 'BEGIN {
    printf "requests per second                  %10.0f\n", lines / clock
    printf "processor microseconds per request   %10.2f\n", processor * 1e6 / lines
    printf "  of the first tenth                 %10.2f\n", first * 1e7 / lines
    printf "  of the last tenth                  %10.2f\n", (processor - before) * 1e7 / lines
    printf "peak memory, MiB                     %10.1f\n", memory / 1024
}'
