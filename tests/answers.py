"""Whether what a link was answered is legal: a second writing of the rules of docs/PROTOCOL.md on links, which shares nothing with the
program.

What a link gave is taken in by the rules of `tools/frames check`. Of what it was sent, the errors have to be those of the intake, in
their order; the frames of an entry have to come together; and those of each session have to be those of one legal history, by
tests/schedules.py.
Python 3, standard library.
"""
import importlib.machinery
import importlib.util
import json
import os
import struct

import frames
import schedules
from schedules import holds

TOP = os.path.dirname(os.path.dirname(os.path.realpath(__file__)))


def frames_tool():
    loader = importlib.machinery.SourceFileLoader("frames_tool", f"{TOP}/tools/frames")
    made = importlib.util.module_from_spec(importlib.util.spec_from_loader("frames_tool", loader))
    loader.exec_module(made)
    return made


TOOL = frames_tool()


class Intake:
    """What is taken in of a stream: the sessions in the order of their openings, the requests of each, and the errors."""

    def __init__(self, given, hosts):
        self.opened, self.sessions, self.errors = TOOL.Opened(hosts), {}, []
        for at, body, wrong in TOOL.frames_of(given):
            if body is None:
                self.fail(TOOL.NodeError("BadFrame", at, wrong))
            else:
                self.take(body)

    def fail(self, error, request=None):
        known = {"request": request} if request else {}
        self.errors.append(frames.of_error({"error": error.name, "detail": error.detail, "running": len(self.errors) + 1, **known}))

    def take(self, body):
        try:
            header, channel, kernel, content = TOOL.read_message(body)
        except TOOL.NodeError as error:
            self.fail(error)
            return
        request = {"header": header, "channel": channel, "kernel": f"{kernel:032x}", "content": {"restart": False, **content}}
        try:
            self.opened.take(header, kernel, content)
        except TOOL.NodeError as error:
            self.fail(error, request)
            return
        self.sessions.setdefault(TOOL.hyphened(kernel), []).append(request)


def messages_in(data):
    """The messages of these frames, each written as the rules have it."""
    at = 0
    while at < len(data):
        (length,) = struct.unpack_from(">I", data, at) if len(data) - at >= 4 else (0,)
        body = data[at + 4 : at + 4 + length]
        holds(length and len(body) == length, "what is sent ends within a frame, at byte", at)
        message = json.loads(body)
        holds(frames.frame(message)[4:] == body, "a frame is written otherwise:", body[:200])
        yield message
        at += 4 + length


def is_idle(message):
    return message["header"]["msg_type"] == "status" and message["content"] == {"execution_state": "idle"}


def units_of(messages):
    """The frames that come together: an error alone, or those of an entry of one session."""
    unit = []
    for message in messages:
        unit.append(message)
        holds(message["kernel"] == unit[0]["kernel"], "the frames of an entry of", unit[0]["kernel"], "don't come together")
        is_error = message["header"]["msg_type"] == "node_error"
        holds(not is_error or len(unit) == 1, "an error comes within an entry")
        if is_error or is_idle(message):
            yield unit
            unit = []
    holds(not unit, "the last entry doesn't end")


def parted(messages):
    """The errors in the order in which they came, and the frames of each session."""
    errors, sessions = [], {}
    for unit in units_of(messages):
        if unit[0]["header"]["msg_type"] == "node_error":
            errors += unit
        else:
            sessions.setdefault(unit[0]["kernel"], []).extend(unit)
    return errors, sessions


def judge(given, hosts, refused, sent):
    """Raises Illegal unless a link that gave these bytes may be sent those. A code that can't be read has its error in `refused`."""
    intake, (errors, sessions) = Intake(given, hosts), parted(messages_in(sent))
    differ = next(((one, other) for one, other in zip(intake.errors, errors) if one != other), None)
    holds(differ is None, "an error is to be another:", *map(json.dumps, differ or ()))
    holds(len(intake.errors) == len(errors), len(errors), "errors are sent, and there are to be", len(intake.errors))
    for kernel, (opening, *requests) in intake.sessions.items():
        try:
            schedules.judge_session(opening, requests, hosts, refused, sessions.pop(kernel, []))
        except schedules.Illegal as why:
            raise schedules.Illegal(f"kernel {kernel}: {why}") from None
    holds(not sessions, "more is sent than of the sessions that were opened")
