#!/usr/bin/env python3
"""Writes the files of a store of several nodes with an empty text, and what the file of one of its nodes becomes when it is
made again.
usage: several_nodes.py FOLDER NODES PARTITIONS COPIES EPOCHS NODE AGAIN

Epoch E is put(4 + E, 70 * E) as id E; each seventh one was prepared by the nodes and never committed. Files 0 and 1 are
the layouts and the coordinator's, and node N has file 2 + N. docs/FORMATS.md says what the bytes are."""
import sys

folder, again = sys.argv[1], sys.argv[7]
nodes, partitions, copies, epochs, lost = map(int, sys.argv[2:7])


def number(value, size):
    return value.to_bytes(size, "big")


def log(kind, bodies):
    entries = b"".join(b"\1" + number(len(body), 4) + body for body in bodies)
    return b"COCOLOG" + bytes([kind]) + entries + b"\0"


def integer(value):
    return b"\1" + number(value, 8)


def layout():
    files = b"".join(number(file, 4) for file in range(1, 2 + nodes))
    return bytes([1, 1, nodes, partitions, copies]) + files + number(0, 8) + number(0, 4)


def done(epoch):
    row, value = integer(4 + epoch), integer(70 * epoch)
    return number(epoch, 8) + number(1, 2) + b"\0\2" + row + value + number(1, 8) + b"\0" + value


def commit(epoch):
    return b"\2" + number(epoch, 8) + number(1, 4) + done(epoch)


def is_held(row, node):
    return any((row % partitions + copy) % nodes == node for copy in range(copies + 1))


def prepared(epoch, node):
    row = number(0, 2) + number(4 + epoch, 8) + number(1, 8) + integer(70 * epoch)
    rows = [row] if is_held(4 + epoch, node) else []
    return b"\3" + number(epoch, 8) + number(len(rows), 4) + b"".join(rows)


every = range(1, epochs + 1)
committed = [epoch for epoch in every if epoch % 7]
files = [log(0, [layout()]), log(1, [commit(epoch) for epoch in committed])]
files += [log(2, [prepared(epoch, node) for epoch in every]) for node in range(nodes)]
for file, content in enumerate(files):
    with open(f"{folder}/{file}.coco", "wb") as out:
        out.write(content)
with open(again, "wb") as out:
    out.write(log(2, [prepared(epoch, lost) for epoch in committed]))
