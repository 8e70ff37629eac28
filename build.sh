#!/usr/bin/env bash
# Builds the proved program, crates/coco/out/coco, and tells how far it is. It proves the crates that the program stands on, each
# once, as many side by side as there are processors, and neither tests nor wrong bodies; what was proved before stays so.
# usage: bash build.sh [CRATES AT A TIME]
set -euo pipefail
cd "$(dirname "$0")"
exec python3 - "${1:-$(nproc)}" <<'PYTHON'
import subprocess, sys, time

most, below = int(sys.argv[1]), {}
for line in open("crates.txt"):
    name, _, libraries = line.split("#")[0].strip().partition(":")
    below[name.split()[0] if name else ""] = libraries.split()
wanted = ["coco"]
for name in wanted:
    wanted += [it for it in below[name] if it in below and it not in wanted]

running, proved, began = {}, set(), time.time()
while len(proved) < len(wanted):
    for name in wanted:
        ready = name not in proved and name not in running and proved.issuperset(set(below[name]) & below.keys())
        if ready and len(running) < most:
            verb = ["rt", "lib"] if name != "coco" else ["rt", "run", "--", "--help"]
            log = open(f"/tmp/coco-build-{name}.log", "w+")
            running[name] = subprocess.Popen(verb, cwd=f"crates/{name}", stdin=subprocess.DEVNULL, stdout=log, stderr=log), log
    time.sleep(0.2)
    for name, (process, log) in list(running.items()):
        if process.poll() is None:
            continue
        # The program ends with status 1 where it is asked for help, as it has none.
        if process.returncode != (1 if name == "coco" else 0):
            log.seek(0)
            sys.exit(f"{name} wasn't proved:\n{log.read()[-2000:]}")
        del running[name]
        proved.add(name)
        print(f"{len(proved)} of {len(wanted)} crates proved after {(time.time() - began) / 60:.0f} minutes: {name}", flush=True)
PYTHON
