#!/usr/bin/env python3
"""A client of coco: one call at a time, answered before the next one. usage: client.py PROGRAM STORE <CALLS

A call is sent again where no answer came: it runs once all the same, since it has the id of the first time."""
import json
import subprocess
import sys


class Coco:
    def __init__(self, program, store):
        self.words, self.process = [program, store, "run", "--epoch", "1"], None

    def call(self, id, call, *args):
        for _ in range(4):
            try:
                self.process = self.process or subprocess.Popen(self.words, stdin=subprocess.PIPE, stdout=subprocess.PIPE)
                self.process.stdin.write(json.dumps({"id": id, "call": call, "args": args}).encode() + b"\n")
                self.process.stdin.flush()
                answer = self.process.stdout.readline()
                if answer.endswith(b"\n"):
                    return json.loads(answer)
            except OSError:
                pass
            status, self.process = self.process.kill() or self.process.wait(), None
        raise RuntimeError(f"no answer to {id}: status {status}")


if __name__ == "__main__":
    coco = Coco(sys.argv[1], sys.argv[2])
    for line in sys.stdin:
        print(json.dumps(coco.call(*json.loads(line))), flush=True)
