#!/usr/bin/env python3
"""The stream of `made n` by a second writing of its rule, and what is counted of what is written of it.

  tests/made.py N                its messages, each as JSON
  tests/made.py N --frames       its bytes, to be given to `run`

A session is opened on host 0. Cell 1 defines a function, a dict and a number; cell j above it puts j under one of seven keys, counts the
keys, counts what is under them, or prints the count, by j mod 4. After each fourth cell j the session moves to host j / 4 mod 3, where all
costs are 1. All come on shell: the opening, the odd cells and the moves by the frontend f1, the even cells by f2. A message is compact JSON
with its members in ascending order.
Python 3, standard library.
"""
import json
import struct
import sys

HOSTS = 3
KERNEL = "00000000-0000-4000-8000-000000000001"
FIRST = "def add(d, k, v):\n    if k in d:\n        d[k].append(v)\n    else:\n        d[k] = [v]\nd = {}\ntotal = 0"
# Of a cell above the first, by its number mod 4.
LATER = ['add(d, "k{key}", {number})', "total += len(d)", "for k in d:\n    total += len(d[k])", "print(total)"]


def message(frontend, name, kind, content):
    header = {"date": "", "msg_id": name, "msg_type": kind, "session": frontend, "username": "made", "version": "5.3"}
    return {"channel": "shell", "content": content, "header": header, "kernel": KERNEL}


def code_of(number):
    return FIRST if number == 1 else LATER[number % 4].format(key=number % 7, number=number)


def messages(cells, moves=True):
    """The messages of the stream with so many cells, with or without its moves."""
    yield message("f1", "o", "kernel_open_request", {"host": 0})
    for number in range(1, cells + 1):
        yield message("f1" if number % 2 else "f2", f"c{number}", "execute_request", {"code": code_of(number)})
        if moves and number % 4 == 0:
            costs = {"copy_base": 1, "per_byte": 1, "per_step": 1, "run_base": 1}
            yield message("f1", f"m{number}", "migrate_request", {**costs, "to": number // 4 % HOSTS})


def stream(cells, moves=True):
    """Its bytes."""
    bodies = [json.dumps(it, separators=(",", ":"), sort_keys=True).encode() for it in messages(cells, moves)]
    return b"".join(struct.pack(">I", len(it)) + it for it in bodies)


def counts(written):
    """The line that tells what these messages count: cells, their errors, moves, and the bytes that were printed."""
    told = [(it["header"]["msg_type"], it["content"]) for it in written]
    cells = sum(kind == "execute_reply" for kind, _ in told)
    errors = sum(kind == "error" for kind, _ in told)
    moves = sum(kind == "migrate_reply" and content["status"] == "ok" for kind, content in told)
    printed = sum(len(content["text"].encode()) for kind, content in told if kind == "stream")
    return f"cells {cells} errors {errors} moves {moves} printed {printed}\n"


def main(words):
    cells = int(words[0])
    if words[1:] == ["--frames"]:
        sys.stdout.buffer.write(stream(cells))
    else:
        for it in messages(cells):
            print(json.dumps(it))


if __name__ == "__main__":
    if sys.argv[1:] in (["-h"], ["--help"]):
        print(__doc__, end="")
        sys.exit(0)
    main(sys.argv[1:])
