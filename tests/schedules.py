#!/usr/bin/env python3
"""Streams of many sessions that move among many hosts, made by a fixed rule; and whether what the program writes of one is legal.

  tests/schedules.py N           the N-th stream of tests/cases/schedules.json: its hosts, its workers, and its requests
  tests/schedules.py N --frames  its bytes, to be given to the program

Whatever host runs a session and whenever it moves, the frames of a session have to be those of one legal history. This judges it by
a second writing of the rules of docs/JOURNAL.md, docs/PLANNING.md and docs/PROTOCOL.md that shares nothing with the program. The
requests on control may be answered anywhere among the others, each of the two lists in its order. A session is replayed by the rules of
tests/cells.py as one kernel that never moves; its history graph is that of tests/histories.py. A move that was done has to be by a plan
that is feasible, and by a legal flow of the same value as its cost, which shows that no plan costs less. Nothing is said of memory: a
session that died of it, or a move that was put off for it, isn't legal here.
Python 3, standard library.
"""
import json
import os
import struct
import sys

sys.dont_write_bytecode = True
import cells
import checkpoints
import frames
import histories
import reader
from unmoved import WEIGHTS, Chance

MOST_HOSTS, MOST_WORKERS = 64, 16
MOST_WEIGHT, UNBOUNDED = 1_000_000, 2**63
HEADER = {"session": "s", "date": "2024-01-02T03:04:05Z", "username": "u", "version": "5.3"}


# ---- streams by a rule


def message(kernel, number, channel, kind, content):
    header = {**HEADER, "msg_id": f"m{number}", "msg_type": kind}
    return {"channel": channel, "content": content, "header": header, "kernel": f"{kernel:032x}"}


def hosts_of(case, chance):
    """One of the case's numbers of hosts, or any."""
    some = case["hosts"]
    which = chance.below(len(some) + 1)
    return some[which] if which < len(some) else 1 + chance.below(MOST_HOSTS)


def request_of(case, chance, hosts):
    """A request: its channel, type and content."""
    which = chance.below(32)
    if which < 11:
        to = chance.below(hosts) if chance.below(12) else chance.below(2 * hosts + 1)
        weights = case["under"][chance.below(len(case["under"]))]
        return "shell" if chance.below(3) else "control", "migrate_request", {"to": to, **dict(zip(WEIGHTS, weights))}
    if which == 11:
        return "shell", "shutdown_request", {"restart": chance.below(8) > 0}
    if which == 12:
        return "control" if chance.below(2) else "shell", "kernel_info_request", {}
    more = {13: {"store_history": False}, 14: {"silent": True}}.get(which, {})
    codes = case["codes"]
    return "shell", "execute_request", {"code": codes[chance.below(len(codes))], **more}


def chance_of(number):
    chance = Chance(number * 2654435761)
    chance.below(1)
    return chance


def stream(case, number):
    """The hosts, the workers and the messages of a stream."""
    chance = chance_of(number)
    hosts, workers = hosts_of(case, chance), 1 + chance.below(MOST_WORKERS)
    return hosts, workers, asked_on(case, chance, hosts)


def asked_on(case, chance, hosts):
    """The messages of a stream for so many hosts. A session is opened when its first request comes."""
    sessions = 1 + chance.below(case["sessions"])
    told, asked = [], [0] * sessions
    for _ in range(sessions * (4 + chance.below(case["length"]))):
        kernel = chance.below(sessions)
        if not asked[kernel]:
            told.append(message(kernel, 0, "shell", "kernel_open_request", {"host": chance.below(hosts)}))
        asked[kernel] += 1
        told.append(message(kernel, asked[kernel], *request_of(case, chance, hosts)))
    return told


def framed(messages):
    """The bytes of these messages."""
    bodies = [json.dumps(it, ensure_ascii=False).encode() for it in messages]
    return b"".join(struct.pack(">I", len(it)) + it for it in bodies)


# ---- judging


class Illegal(Exception):
    """Why what was written is no legal history."""


def holds(is_so, *why):
    if not is_so:
        raise Illegal(" ".join(map(str, why)))


def new_session():
    """A session whose draws are all alike: no code here shows one."""
    session = cells.Session()
    session.words = [7] * 1_000
    return session


def is_control(request):
    return request["channel"] == "control" and request["header"]["msg_type"] == "migrate_request"


def arcs_of(records, versions, weights):
    """The arcs of the plan network, in order, with what each can carry."""
    copy_base, per_byte, run_base, per_step = weights
    active = [v for v, it in enumerate(versions, 1) if not it["replaced"]]
    for v in active:
        it = versions[v - 1]
        yield "s", f"v{v}", UNBOUNDED if it["handle"] else 0 if it["absent"] else copy_base + per_byte * it["size"]
    for v in active:
        yield f"v{v}", f"c{versions[v - 1]['by']}", UNBOUNDED
    for c, (_, _, _, reads, _) in enumerate(records, 1):
        for writer in sorted({versions[v - 1]["by"] for v in reads if versions[v - 1]["replaced"]}):
            yield f"c{c}", f"c{writer}", UNBOUNDED
    for c, (_, steps, drew, _, _) in enumerate(records, 1):
        yield f"c{c}", "t", UNBOUNDED if drew else run_base + per_step * steps


def judge_flow(records, versions, weights, arcs, cost):
    """The printed arcs are, in order, those of a legal flow of this value that carry something."""
    left = iter(arcs_of(records, versions, weights))
    gives = {}
    for source, target, flow in arcs:
        capacity = next((most for one, other, most in left if (one, other) == (source, target)), None)
        holds(capacity is not None, "no such arc comes next:", source, target)
        holds(0 < flow <= capacity, "an arc carries", flow, "of", capacity)
        gives[source] = gives.get(source, 0) + flow
        gives[target] = gives.get(target, 0) - flow
    holds(all(gives[it] == 0 for it in gives if it not in "st"), "a node doesn't give what it takes")
    holds(gives.get("s", 0) == cost, "the flow is", gives.get("s", 0), "and the cost", cost)


def judge_plan(records, versions, copied, again):
    """The plan is feasible."""
    active = {v for v, it in enumerate(versions, 1) if not it["replaced"]}
    holds(set(copied) <= active and sorted(set(copied)) == copied, "no such copies:", copied)
    holds(set(again) <= {*range(1, len(records) + 1)} and sorted(set(again)) == again, "no such cells:", again)
    holds(not any(versions[v - 1]["handle"] for v in copied), "a handle is copied")
    holds(not any(records[c - 1][2] for c in again), "a cell that drew runs again")
    holds(all(v in copied or versions[v - 1]["by"] in again for v in active), "a version is neither copied nor made again")
    reads = {v for c in again for v in records[c - 1][3]}
    holds(all(versions[v - 1]["by"] in again for v in reads if versions[v - 1]["replaced"]), "what a cell reads again isn't made again")


def stuck(records, versions):
    """The first version that holds a handle and needs a cell that drew, and that cell."""
    for v, it in enumerate(versions, 1):
        if it["handle"] and not it["replaced"]:
            need, new = set(), {it["by"]}
            while new:
                need |= new
                reads = {w for c in new for w in records[c - 1][3]}
                new = {versions[w - 1]["by"] for w in reads if versions[w - 1]["replaced"]} - need
            drew = [c for c in sorted(need) if records[c - 1][2]]
            if drew:
                return v, drew[0], it["names"]
    return None


class Replay:
    """A session as one kernel that never moves, with the host that owns it."""

    def __init__(self, host, refused):
        self.host, self.refused = host, refused
        self.is_dead = False
        self.begin()

    def begin(self):
        self.kernel, self.codes, self.count = cells.Session(), [], 0

    def cell(self, content):
        """A cell's line, without its request."""
        silent = content.get("silent", False)
        self.count += content.get("store_history", True) and not silent
        self.codes.append(content["code"])
        told = {"error": self.refused[content["code"]]} if content["code"] in self.refused else self.kernel.cell(content["code"])[0]
        name, _, text = told.get("error", "").partition(": ")
        shown = {"shown": told["result"]} if "result" in told else {}
        return {"reply": "executed", "count": self.count, "silent": silent, "printed": told.get("out", ""), "ename": name, "evalue": text, **shown}

    def work(self, request):
        """The line of a request that is no move."""
        kind, content = request["header"]["msg_type"], request["content"]
        if self.is_dead:
            return {"entry": "dead", "count": self.count}
        if kind == "execute_request":
            return {"entry": "ran", **self.cell(content)}
        if kind == "kernel_info_request":
            return {"entry": "ran", "reply": "info"}
        if kind == "is_complete_request":
            how, _, indent = reader.completeness(content["code"]).partition(" ")
            return {"entry": "ran", "reply": how, "indent": int(indent or 0)}
        if content["restart"]:
            self.begin()
        self.is_dead = not content["restart"]
        return {"entry": "ran", "reply": "shut", "restart": content["restart"]}

    def line(self, request, hosts, written):
        """The line of a request after the opening."""
        if request["header"]["msg_type"] == "migrate_request":
            return self.move(request, hosts, written)
        return self.work(request)

    def reason(self, to, weights, hosts):
        """The first reason not to plan a move, if there is one."""
        if self.is_dead:
            return "dead"
        if to == self.host:
            return "same host"
        if to >= hosts:
            return "unknown host"
        return next((name for name, it in zip(WEIGHTS, weights) if it > MOST_WEIGHT), None)

    def move(self, request, hosts, written):
        """The line of a move, which takes its plan from what was written, once it is judged."""
        content = request["content"]
        to, weights = content["to"], [content[it] for it in WEIGHTS]
        reason = self.reason(to, weights, hosts)
        if reason:
            return {"entry": "refused", "reason": reason, "host": self.host, "to": to}
        session, records, versions = histories.history(self.codes, new_session())
        found = stuck(records, versions)
        if found:
            return {"entry": "refused", "reason": "stuck", "version": found[0], "cell": found[1], "names": found[2]}
        items, arcs = gathered(written, "migrate_plan", "items"), gathered(written, "migrate_flow", "arcs")
        copied, again = ([at for what, at in items if what == which] for which in ("copy", "run"))
        judge_plan(records, versions, copied, again)
        cost = checkpoints.cost(records, versions, (copied, again), weights)
        judge_flow(records, versions, weights, arcs, cost)
        owner, self.host = self.host, to
        objects = len(histories.reached([*session.globals.values()]))
        nodes = [[(a[0], a[1:]), (b[0], b[1:]), flow] for a, b, flow in arcs]
        return {"entry": "adopted", "from": owner, "to": to, "copied": copied, "rerun": again, "arcs": nodes, "cost": cost, "objects": objects}


def gathered(written, kind, member):
    """What the messages of this kind have, one after the other."""
    return [it for one in written if one["header"]["msg_type"] == kind for it in one["content"][member]]


def entries_of(written):
    """The messages of a session, those of each entry together: an entry ends with the kernel idle."""
    entry = []
    for one in written:
        entry.append(one)
        if one["header"]["msg_type"] == "status" and one["content"] == {"execution_state": "idle"}:
            yield entry
            entry = []
    holds(not entry, "the last entry doesn't end")


def judge_session(opening, requests, hosts, refused, written, replayed=Replay, whole=True):
    """The messages are those of a legal history in which each request is answered, or, if it isn't whole, the first ones."""
    replay, after = replayed(opening["content"]["host"], refused), 1
    lists = [[it for it in requests if is_control(it) == which] for which in (False, True)]
    for at, entry in enumerate(entries_of(written)):
        answers = entry[0]["parent_header"]["msg_id"]
        request = opening
        if at:
            mine = next((it for it in lists if it and it[0]["header"]["msg_id"] == answers), None)
            holds(mine is not None, f"{answers} isn't the next of its list")
            request = mine.pop(0)
        kind = request["header"]["msg_type"]
        if not at:
            line = {"entry": "opened", "host": replay.host}
        else:
            line = replay.line(request, hosts, entry)
        expected, after = frames.of_entry({**line, "request": request, "first": after})
        differ = next(((a, b) for a, b in zip(expected, entry) if a != b), None)
        holds(differ is None and len(expected) == len(entry), f"{answers}, a {kind}:", *(map(json.dumps, differ or ())))
    holds(not whole or not (lists[0] or lists[1]), "not answered:", [it["header"]["msg_id"] for one in lists for it in one])


def judge(messages, hosts, refused, written):
    """Raises Illegal unless the messages that were written are, session by session in the order of opening, those of legal histories."""
    left = [*written]
    for opening in (it for it in messages if it["header"]["msg_type"] == "kernel_open_request"):
        kernel = frames.kernel_of(opening)
        requests = [it for it in messages if it["kernel"] == opening["kernel"] and it is not opening]
        count = next((at for at, it in enumerate(left) if it["kernel"] != kernel), len(left))
        try:
            judge_session(opening, requests, hosts, refused, left[:count])
        except Illegal as why:
            raise Illegal(f"kernel {kernel}: {why}") from None
        left = left[count:]
    holds(not left, "more is written than of the sessions")


def case_of(number):
    """The case and the number in it of the N-th stream."""
    with open(f"{os.path.dirname(os.path.realpath(__file__))}/cases/schedules.json", encoding="utf-8") as it:
        for case in json.load(it)["cases"]:
            if number <= case["schedules"]:
                return case, number
            number -= case["schedules"]
    raise SystemExit("there are not so many streams")


def main(words):
    hosts, workers, messages = stream(*case_of(int(words[0])))
    if words[1:] == ["--frames"]:
        sys.stdout.buffer.write(framed(messages))
        return
    print(f"--hosts {hosts} --workers {workers}")
    for it in messages:
        print(f"  {it['kernel'][-2:]} {it['channel']:<8} {it['header']['msg_type']:<20} {json.dumps(it['content'], ensure_ascii=False)}")


if __name__ == "__main__":
    if not sys.argv[1:] or sys.argv[1] in ("-h", "--help"):
        print(__doc__, end="")
        sys.exit(0 if sys.argv[1:] else 2)
    main(sys.argv[1:])
