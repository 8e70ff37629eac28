#!/usr/bin/env python3
"""Says what the last layout of a store has. usage: layout.py FILE-0 files|partitions|procedures
Or makes a new store of one node and one partition with a text of procedures. usage: layout.py --new TEXT FOLDER

`files` are the numbers of its files, in the order in which they may be copied while the store is at work: the base's where
there is one, the coordinator's, the nodes'. docs/FORMATS.md says what the bytes are."""
import sys


def make(text, folder):
    numbers = b"\0\0\0\1" + b"\0\0\0\2" + bytes(8)
    body = b"\1\1\1\1\0" + numbers + len(text).to_bytes(4, "big") + text
    entry = b"\1" + len(body).to_bytes(4, "big") + body
    for number, entries in enumerate([entry, b"", b""]):
        open(f"{folder}/{number}.coco", "wb").write(b"COCOLOG" + bytes([number]) + entries + b"\0")


if sys.argv[1] == "--new":
    make(open(sys.argv[2], "rb").read(), sys.argv[3])
    sys.exit()
log = open(sys.argv[1], "rb").read()
if log[:8] != b"COCOLOG\0":
    sys.exit("no log of layouts")
at, body = 8, None
while log[at] == 1:
    length = int.from_bytes(log[at + 1 : at + 5], "big")
    body, at = log[at + 5 : at + 5 + length], at + 5 + length
version, nodes, partitions = body[1], body[2], body[3]
numbers = [int.from_bytes(body[5 + 4 * it : 9 + 4 * it], "big") for it in range(1 + nodes)]
start = 5 + 4 * (1 + nodes) + 8 + 4
end = start + int.from_bytes(body[start - 4 : start], "big")
base = [int.from_bytes(body[end + 2 : end + 6], "big")] if version == 3 else []
if sys.argv[2] == "files":
    print(*base, *numbers)
elif sys.argv[2] == "partitions":
    print(partitions)
else:
    sys.stdout.buffer.write(body[start:end])
