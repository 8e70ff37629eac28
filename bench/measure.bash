# What the benchmarks of stores share: runs that are timed, rows of a table, and new stores. They source it; $ram is a
# folder with the file input, and $program the program.

# measured RUNS PREPARE.. -- COMMAND..: the input is $ram/input. Seconds of the clock and of the processor, and KiB at
# most, each the least of the runs; what is prepared before each run isn't measured.
measured() {
    python3 - "$ram/input" "$ram/said" "$@" <<'P'
import os, subprocess, sys, time
source, said, runs, *words = sys.argv[1:]
between = words.index("--")
prepare, command = words[:between], words[between + 1:]
streams = [(os.POSIX_SPAWN_OPEN, 0, source, os.O_RDONLY, 0),
           (os.POSIX_SPAWN_OPEN, 1, said, os.O_WRONLY | os.O_CREAT | os.O_TRUNC, 0o600)]
def run():
    if prepare:
        subprocess.run(prepare, check=True)
    began = time.monotonic()
    child = os.posix_spawnp(command[0], command, os.environ, file_actions=streams)
    _, status, used = os.wait4(child, 0)
    if status != 0:
        sys.exit(f"{command} ended with {status}")
    return used.ru_utime + used.ru_stime, time.monotonic() - began, used.ru_maxrss
processor, clock, memory = map(min, zip(*[run() for _ in range(int(runs))]))
print(clock, processor, memory)
P
}

# row NAME COUNT CLOCK PROCESSOR MEMORY: a row of the table.
row() {
    awk -v name="$1" -v count="$2" -v clock="$3" -v processor="$4" -v memory="$5" 'BEGIN {
        printf "%-34s %9d %10.0f %10.2f %9.1f\n", name, count, count / clock, processor * 1e6 / count, memory / 1024 }'
}

# fresh STORE PROGRAM PROCEDURES [WORD..]: a new store in that place of another one.
fresh='rm -rf "$1" && "$2" "$1" init "${@:4}" <"$3"'
