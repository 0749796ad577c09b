"""What is in the frames of entries and of errors of the node: a second writing of the rules of docs/PROTOCOL.md, which shares
nothing with the program. JSON is written by Python's own writer.

A line is what the program `frames_show` is asked (crates/frames_show/src/main.rt says its members).
"""
import json
import struct
import uuid

# The longest code, piece of printed text or result, and text of an error in a message, in bytes.
MOST_CODE, MOST_PIECE, MOST_ERROR = 262_144, 65_536, 4_096
# The most steps or arcs in a message, and the most names in a reply.
MOST_ITEMS, MOST_NAMES = 4_096, 1_000
TEXTS = ("date", "msg_id", "msg_type", "session", "username", "version")
REPLIES = {
    "execute_request": "execute_reply",
    "kernel_info_request": "kernel_info_reply",
    "is_complete_request": "is_complete_reply",
    "shutdown_request": "shutdown_reply",
    "migrate_request": "migrate_reply",
}
NUMBERS = "NotJson BadRecord UnknownKernel OpenedTwice UnknownHost UnknownType TooManySessions TooManyRequests BadFrame".split()
BUSY = ("iopub", "status", {"execution_state": "busy"})
IDLE = ("iopub", "status", {"execution_state": "idle"})
INFO = {
    "banner": "elastic_notebook",
    "help_links": [],
    "implementation": "elastic_notebook",
    "implementation_version": "1",
    "language_info": {"file_extension": ".py", "mimetype": "text/x-python", "name": "python", "version": "3"},
    "protocol_version": "5.3",
    "status": "ok",
}


def frame(value):
    """The frame of a message: members ascend by their names, and there is no white space."""
    body = json.dumps(value, ensure_ascii=False, sort_keys=True, separators=(",", ":")).encode()
    return struct.pack(">I", len(body)) + body


def beginning(text, most):
    """The longest beginning of whole characters within so many bytes."""
    return text.encode()[:most].decode(errors="ignore")


def pieces(text, most):
    while text:
        piece = beginning(text, most)
        yield piece
        text = text[len(piece) :]


def header_of(request):
    """The six texts of a request's header."""
    return {name: request["header"].get(name, "") for name in TEXTS}


def kernel_of(request):
    return str(uuid.UUID(request["kernel"]))


def failure(name, text):
    cut = beginning(text, MOST_ERROR)
    return {"ename": name, "evalue": cut, "traceback": [f"{name}: {cut}"]}


# ---- what is said between busy and idle: channel, type and content of each message


def executed(line, channel):
    count, reply = line["count"], {"execution_count": line["count"], "status": "ok", "user_expressions": {}}
    if line["ename"]:
        reply = {**failure(line["ename"], line["evalue"]), "execution_count": count, "status": "error"}
    if not line["silent"]:
        yield "iopub", "execute_input", {"code": beginning(line["request"]["content"]["code"], MOST_CODE), "execution_count": count}
        for piece in pieces(line["printed"], MOST_PIECE):
            yield "iopub", "stream", {"name": "stdout", "text": piece}
        if line["ename"]:
            yield "iopub", "error", failure(line["ename"], line["evalue"])
        elif "shown" in line:
            shown = beginning(line["shown"], MOST_PIECE)
            text = shown if shown == line["shown"] else shown + "..."
            yield "iopub", "execute_result", {"data": {"text/plain": text}, "execution_count": count, "metadata": {}}
    yield channel, "execute_reply", reply


def ran(line, channel):
    reply = line["reply"]
    if reply == "executed":
        yield from executed(line, channel)
    elif reply == "info":
        yield channel, "kernel_info_reply", INFO
    elif reply == "shut":
        yield channel, "shutdown_reply", {"restart": line["restart"], "status": "ok"}
    else:
        spaces = {"indent": " " * line["indent"]} if reply == "incomplete" else {}
        yield channel, "is_complete_reply", {"status": reply, **spaces}


def failed(line, channel, name, text):
    kind = line["request"]["header"]["msg_type"]
    count = {"execution_count": line["count"]} if kind == "execute_request" else {}
    yield channel, REPLIES[kind], {**failure(name, text), "status": "error", **count}


def lists(kind, member, items):
    for at in range(0, len(items), MOST_ITEMS):
        yield "iopub", kind, {member: items[at : at + MOST_ITEMS]}


def node(it):
    letter, number = it
    return letter if letter in "st" else f"{letter}{number}"


def adopted(line, channel):
    yield from lists("migrate_plan", "items", [["copy", it] for it in line["copied"]] + [["run", it] for it in line["rerun"]])
    yield from lists("migrate_flow", "arcs", [[node(source), node(target), flow] for source, target, flow in line["arcs"]])
    told = {"copied": len(line["copied"]), "rerun": len(line["rerun"]), "cost": line["cost"], "flow": line["cost"]}
    yield channel, "migrate_reply", {**told, "from": line["from"], "to": line["to"], "objects": line["objects"], "status": "ok"}


def refusal(line):
    reason = line["reason"]
    if reason == "stuck":
        names = {"names": line["names"][:MOST_NAMES], "size": len(line["names"])}
        return {"ename": "Stuck", "evalue": "neither copied nor recomputed", "version": line["version"], "cell": line["cell"], **names}
    known = {
        "dead": ("DeadKernel", "kernel is dead"),
        "same host": ("SameHost", f"host {line['host']}"),
        "unknown host": ("UnknownHost", f"host {line.get('to')}"),
    }
    name, text = known.get(reason, ("BadWeights", reason))
    return {"ename": name, "evalue": text}


def opened(line, channel):
    yield channel, "kernel_open_reply", {"host": line["host"], "status": "ok"}


def died(line, channel):
    yield from failed(line, channel, "KernelDied", {"memory": "out of memory", "full": "session full"}[line["cause"]])


def dead(line, channel):
    yield from failed(line, channel, "DeadKernel", "kernel is dead")


def refused(line, channel):
    yield channel, "migrate_reply", {**refusal(line), "status": "error"}


def resumed(line, channel):
    yield channel, "migrate_reply", {"ename": "Resumed", "evalue": "out of memory", "status": "error"}


ENTRIES = {"opened": opened, "ran": ran, "died": died, "dead": dead, "adopted": adopted, "refused": refused, "resumed": resumed}


# ---- frames


def of_entry(line):
    """The messages of an entry, and the number after them."""
    if line["entry"] in ("sealed", "moved"):
        return [], line["first"]
    request = line["request"]
    kernel, answered = kernel_of(request), header_of(request)
    rows = [BUSY, *ENTRIES[line["entry"]](line, request.get("channel", "shell")), IDLE]
    told = []
    for number, (channel, kind, content) in enumerate(rows, line["first"]):
        own = {"date": answered["date"], "msg_id": f"{kernel}_{number}", "msg_type": kind, "session": kernel, "username": "kernel", "version": "5.3"}
        told.append({"channel": channel, "content": content, "header": own, "kernel": kernel, "metadata": {}, "parent_header": answered})
    return told, line["first"] + len(rows)


def of_error(line):
    """The message of an error of the node."""
    request = line.get("request")
    answered = header_of(request) if request else {}
    own = {
        "date": answered.get("date", ""),
        "msg_id": f"node_{line['running']}",
        "msg_type": "node_error",
        "session": "node",
        "username": "node",
        "version": "5.3",
    }
    content = {"detail": str(line.get("detail", "")), "name": line["error"], "number": NUMBERS.index(line["error"]) + 1}
    kernel = kernel_of(request) if request else ""
    return {"channel": "control", "content": content, "header": own, "kernel": kernel, "metadata": {}, "parent_header": answered}


def answer_to(line):
    """What is printed for a line that asks for frames: their bytes, and for an entry the number after them."""
    if "entry" in line:
        told, after = of_entry(line)
        return [after, b"".join(map(frame, told)).hex()]
    if "error" in line:
        return [frame(of_error(line)).hex()]
    return [b"".join(struct.pack(">I", len(it) // 2).hex().encode() + it.encode() for it in line["bodies"]).decode()]
