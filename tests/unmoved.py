#!/usr/bin/env python3
"""Sessions that move at any time, made by a fixed rule, and what is to be compared of them with those that never move.

  tests/unmoved.py [N]           the requests of the N-th session of tests/cases/unmoved.json, or of all

A case has a list of codes (`unmoved`), of which the first so many begin a session (`first`), lists of weights (`under`), how many
`sessions` there are, and of how many requests each is (`length`). Of 32 requests 10 are moves, 17 cells, 2 cells that aren't stored, 2
silent cells, and 1 is a restart, or a move if the case has `restarts` false: each by chance. The k-th cell since the opening or the last
restart is the k-th code if k is at most `first`, by a chance of 7 in 8; else any of the codes. All requests come on shell, and so in
their order in every schedule. A move is from the host where the session is to one of the other two of three. Chance is a sequence of
numbers of its own, so a file gives the same sessions everywhere.
Python 3, standard library.
"""
import json
import os
import sys

HOSTS = 3
WEIGHTS = ("copy_base", "per_byte", "run_base", "per_step")
COMPARED = ("execute_input", "stream", "execute_result", "error", "execute_reply", "shutdown_reply")


class Chance:
    """Knuth's linear congruential generator of 64 bits; the high ones are used."""

    def __init__(self, seed):
        self.state = seed

    def below(self, most):
        self.state = (self.state * 6364136223846793005 + 1442695040888963407) % 2**64
        return (self.state >> 33) % most


def code_of(case, chance, cells):
    """The code of a cell after so many others."""
    codes = case["unmoved"]
    return codes[cells if cells < case["first"] and chance.below(8) else chance.below(len(codes))]


def request_of(case, chance, cells):
    """A request: its type and content. cells: how many cells came since the opening or the last restart."""
    which = chance.below(32)
    if which == 31 and case.get("restarts", True):
        return "shutdown_request", {"restart": True}
    if which < 10 or which == 31:
        weights = case["under"][chance.below(len(case["under"]))]
        return "migrate_request", dict(zip(WEIGHTS, weights))
    more = {27: {"store_history": False}, 28: {"store_history": False}, 29: {"silent": True}, 30: {"silent": True}}.get(which, {})
    return "execute_request", {"code": code_of(case, chance, cells), **more}


def with_hosts(requests, chance):
    """Says in each move where it goes."""
    host = 0
    for kind, content in requests:
        if kind == "migrate_request":
            host = (host + 1 + chance.below(HOSTS - 1)) % HOSTS
            content["to"] = host
    return requests


def session(case, number):
    """The requests of a session of a case, in order."""
    chance, requests, cells = Chance(number * 2654435761 + 1), [], 0
    chance.below(1)
    for _ in range(case["length"]):
        requests.append(request_of(case, chance, cells))
        cells = {"execute_request": cells + 1, "shutdown_request": 0}.get(requests[-1][0], cells)
    return with_hosts(requests, chance)


def sessions(cases):
    """All sessions, each with its case and its number in it, from 1."""
    return [(case, number, session(case, number)) for case in cases for number in range(1, case["sessions"] + 1)]


def stream(of_sessions, moves):
    """The messages of these sessions, each with its kernel, taken from all in turn; with or without the moves. A request has the same
    msg_id with them and without."""
    header = {"session": "s", "date": "2024-01-02T03:04:05Z"}
    for kernel in range(len(of_sessions)):
        yield {"content": {"host": 0}, "header": {**header, "msg_id": "m0", "msg_type": "kernel_open_request"}, "kernel": f"{kernel:032x}"}
    for at in range(max(map(len, of_sessions))):
        for kernel, requests in enumerate(of_sessions):
            if at < len(requests) and (moves or requests[at][0] != "migrate_request"):
                kind, content = requests[at]
                yield {"content": content, "header": {**header, "msg_id": f"m{at + 1}", "msg_type": kind}, "kernel": f"{kernel:032x}"}


def told(messages, count):
    """Of each of so many sessions what is compared, with the msg_id and the type; and the contents of the replies to its moves."""
    compared, moves = [[] for _ in range(count)], [[] for _ in range(count)]
    for message in messages:
        kind = message["header"]["msg_type"]
        if kind in COMPARED:
            compared[int(message["kernel"].replace("-", ""), 16)].append([message["parent_header"]["msg_id"], kind, message["content"]])
        elif kind == "migrate_reply":
            moves[int(message["kernel"].replace("-", ""), 16)].append(message["content"])
    return compared, moves


def difference(wanted, found):
    """The first rows that differ, or nothing twice."""
    longer = max(len(wanted), len(found))
    rows = [it + [None] * (longer - len(it)) for it in (wanted, found)]
    return next(((one, other) for one, other in zip(*rows) if one != other), (None, None))


def main(words):
    with open(f"{os.path.dirname(os.path.realpath(__file__))}/cases/unmoved.json", encoding="utf-8") as it:
        made = sessions(json.load(it)["cases"])
    for case, number, requests in made[int(words[0]) - 1 :][:1] if words else made:
        print(f"{case['name']}, session {number}")
        for kind, content in requests:
            print(f"  {kind:<17} {json.dumps(content, ensure_ascii=False)}")


if __name__ == "__main__":
    if sys.argv[1:] in (["-h"], ["--help"]):
        print(__doc__, end="")
        sys.exit(0)
    main(sys.argv[1:])
