"""What `tools/frames talk` does: a small frontend for people, over TCP. Python 3, standard library."""
import json
import os
import re
import socket
import struct
import sys
import uuid

WEIGHTS = ("copy_base", "per_byte", "run_base", "per_step")
# What a move costs if nothing else is said: each copy, byte, cell that runs again, and step.
ONES = (1, 1, 1, 1)
PORT = re.compile(r"(?:(?P<host>[^:\[\]]+|\[[^\[\]]+\]):)?(?P<port>[0-9]{1,5})")
MOVE = re.compile(r"%move +([0-9]{1,20})(?: +--weights((?: +[0-9]{1,20}){4}))?")


def address_of(frames, word):
    """An address with a port, or a port alone, which is loopback."""
    found = PORT.fullmatch(word)
    if not found or int(found["port"]) > 65_535:
        raise frames.Stop(frames.USAGE, f"{word!r} is no address: talk takes one, as 127.0.0.1:8765, [::1]:8765, or a port alone")
    return (found["host"] or "127.0.0.1").strip("[]"), int(found["port"])


def words_of(frames, words):
    """The address, and the host on which the session is opened."""
    address, host = words[:1], words[1:] or ["--host", "0"]
    if not address or len(host) != 2 or host[0] != "--host" or not re.fullmatch("[0-9]{1,19}", host[1]):
        raise frames.Stop(frames.USAGE, "the words are `talk ADDRESS` or `talk ADDRESS --host n`; `--help` says more")
    return address_of(frames, address[0]), int(host[1])


class Link:
    """A session at a server. Requests are sent one at a time, and what comes of each is handed on until it is answered whole."""

    def __init__(self, frames, address, seconds=None):
        """Connects. Each wait, also later, has so many seconds, if they are given."""
        self.frames, self.address, self.data, self.asked = frames, address, b"", 0
        self.kernel = str(uuid.uuid4())
        try:
            self.socket = socket.create_connection(address, seconds)
        except OSError as error:
            raise frames.Stop(frames.READ_FAILED, f"no server answers at {self.said()}: {error.strerror or error}") from None
        self.socket.setsockopt(socket.IPPROTO_TCP, socket.TCP_NODELAY, 1)

    def said(self):
        host, port = self.address
        return f"[{host}]:{port}" if ":" in host else f"{host}:{port}"

    def gone(self, why):
        return self.frames.Stop(self.frames.READ_FAILED, f"the server at {self.said()} went away: {why}")

    def send(self, kind, content, kernel=None):
        """Sends a request, to the session or to that of another kernel, and gives its msg_id."""
        self.asked += 1
        header = {"msg_id": f"t{self.asked}", "session": "talk", "msg_type": kind, "username": "talk"}
        body = json.dumps({"channel": "shell", "content": content, "header": header, "kernel": kernel or self.kernel}).encode()
        if len(body) > self.frames.LONGEST:
            raise self.frames.Fault(f"the request has {len(body):,} bytes, and a frame at most {self.frames.LONGEST:,}")
        try:
            self.socket.sendall(self.frames.framed(body))
        except OSError as error:
            raise self.gone(error.strerror or error) from None
        return header["msg_id"]

    def message(self):
        """The next message, or None if the server sends nothing more."""
        while True:
            (length,) = struct.unpack_from(">I", self.data) if len(self.data) >= 4 else (1,)
            if not 0 < length <= self.frames.LONGEST_REPLY:
                raise self.gone("what it sends is no frame")
            if len(self.data) >= 4 + length:
                body, self.data = self.data[4 : 4 + length], self.data[4 + length :]
                return self.read(body)
            if not self.more():
                return None

    def more(self):
        try:
            piece = self.socket.recv(self.frames.PIECE)
        except TimeoutError:
            raise self.gone(f"nothing came for {self.socket.gettimeout():.0f} seconds") from None
        except OSError as error:
            raise self.gone(error.strerror or error) from None
        self.data += piece
        return piece

    def read(self, body):
        try:
            return json.loads(body)
        except (ValueError, RecursionError):
            raise self.gone("what it sends is no JSON") from None

    def ask(self, kind, content, kernel=None):
        """Sends a request, and gives the messages that answer it as they come."""
        name = self.send(kind, content, kernel)
        while (message := self.message()) is not None:
            yield message
            is_ended = message.get("content") == {"execution_state": "idle"} or message["header"]["msg_type"] == "node_error"
            if is_ended and message["parent_header"].get("msg_id") == name:
                return
        raise self.gone("it ended the link before all was answered")


class Talk:
    """The cells that a person types, and what is shown of the answers."""

    def __init__(self, frames, writer, link):
        self.frames, self.writer, self.link = frames, writer, link
        self.notebook = frames.Notebook(writer, None)
        self.is_terminal, self.typed = os.isatty(0), b""

    def show(self, kind, content):
        """Asks, and shows the answers. Gives the last message but the idle."""
        last = None
        for message in self.link.ask(kind, content):
            self.frames.taken(self.writer, 0, json.dumps(message).encode(), self.notebook.message)
            self.writer.flush()
            last = message if message["header"]["msg_type"] != "status" else last
        return last

    def prompt(self, text):
        if self.is_terminal:
            self.notebook.end_line()
            self.writer.say(text)
        self.writer.flush()

    def line(self):
        """The next line that is typed, without its end; or None at the end of input."""
        while b"\n" not in self.typed:
            piece = self.frames.read_some()
            if not piece:
                line, self.typed = self.typed, b""
                return line.decode(errors="replace") if line else None
            self.typed += piece
        line, _, self.typed = self.typed.partition(b"\n")
        return line.decode(errors="replace")

    def how_far(self, code):
        """What the server says of a code: `complete`, `incomplete` or `invalid`. Else, as of a dead session, `invalid`."""
        replies = [it["content"] for it in self.link.ask("is_complete_request", {"code": code}) if it["header"]["msg_type"] == "is_complete_reply"]
        return replies[0]["status"] if replies else "invalid"

    def cell(self):
        """The next cell: lines until they are complete. One whose last line is indented goes on until an empty line. None at the end."""
        lines = []
        while True:
            self.prompt("... " if lines else "> ")
            line = self.line()
            if line is None:
                return "\n".join(lines) if lines else None
            if not lines and (not line.strip() or line.startswith("%")):
                return line
            lines.append(line)
            if not line.startswith((" ", "\t")) and self.how_far("\n".join(lines)) != "incomplete":
                return "\n".join(lines).rstrip("\n")

    def move(self, line):
        """What `%move HOST` and `%move HOST --weights c b r s` ask."""
        found = MOVE.fullmatch(line.strip())
        if not found:
            raise self.frames.Fault("the lines that begin with % are `%move HOST` and `%move HOST --weights c b r s`")
        weights = map(int, found[2].split()) if found[2] else ONES
        self.show("migrate_request", {"to": int(found[1]), **dict(zip(WEIGHTS, weights))})

    def take(self, cell):
        if cell.startswith("%"):
            self.move(cell)
        elif cell.strip():
            self.show("execute_request", {"code": cell})

    def take_next(self):
        """Takes what is typed next. Whether there was anything."""
        try:
            cell = self.cell()
            if cell is not None:
                self.take(cell)
            return cell is not None
        except self.frames.Fault as fault:
            self.notebook.line(f"-- {fault}")
            return True

    def run(self, host):
        opened = self.show("kernel_open_request", {"host": host})
        if opened["header"]["msg_type"] == "node_error":
            return self.frames.BAD_INPUT
        while self.take_next():
            pass
        self.notebook.end_line()
        return 0


def talk(frames, words, writer):
    """Opens a session, and sends what is typed."""
    address, host = words_of(frames, words)
    return Talk(frames, writer, Link(frames, address)).run(host)
