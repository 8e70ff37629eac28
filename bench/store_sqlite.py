#!/usr/bin/env python3
"""The transfers of store.sh in SQLite, by Python's own module: words are the file of the base and the lines of a
transaction. Each answer is kept under its id, and said once its transaction is committed and synced."""
import itertools, json, sqlite3, sys

file, size = sys.argv[1], int(sys.argv[2])
base = sqlite3.connect(file, isolation_level=None)
base.execute("pragma journal_mode = wal")
base.execute("pragma synchronous = full")
base.execute("create table acct (a integer primary key, n integer)")
base.execute("create table kept (id integer primary key, line text, answer text)")


def balance(account):
    found = base.execute("select n from acct where a = ?", (account,)).fetchone()
    return found and found[0]


def put(account, amount):
    base.execute("insert into acct values (?, ?) on conflict (a) do update set n = excluded.n", (account, amount))


def move(a, b, n):
    if a == b:
        return "refused 3"
    x, y = balance(a), balance(b)
    if x is None or y is None:
        return "refused 1"
    if x < n:
        return "refused 2"
    put(a, x - n)
    put(b, y + n)
    return x - n


def answer(line):
    request = json.loads(line)
    kept = base.execute("select line, answer from kept where id = ?", (request["id"],)).fetchone()
    if kept:
        return kept[1] if kept[0] == line else "reused"
    args = request["args"]
    if request["call"] == "open":
        put(*args)
        reply = args[1]
    else:
        reply = move(*args)
    text = json.dumps({"id": request["id"], "ok": reply})
    base.execute("insert into kept values (?, ?, ?)", (request["id"], line, text))
    return text


while batch := list(itertools.islice(sys.stdin, size)):
    base.execute("begin immediate")
    answers = [answer(line) for line in batch]
    base.execute("commit")
    print(*answers, sep="\n", flush=True)
