"""A session at a server, as the kernel opens it: the server that it starts or joins, and the requests that the session answers."""
import contextlib
import importlib.machinery
import importlib.util
import os
import queue
import re
import socket
import subprocess
import sys
import threading

TOP = os.path.dirname(os.path.dirname(os.path.dirname(os.path.realpath(__file__))))
# How long a server that is joined has time to open a session, and a session to shut down.
SECONDS_TO_OPEN, SECONDS_TO_END = 30, 5
SERVES = re.compile(r"elastic_notebook: serves at (.+)\n")
# What the launcher says, among other things, if it builds the program first.
BUILDS = "This builds it"
ENDED = "the kernel was shut down before this was answered"


def frames_tool():
    """The module of tools/frames."""
    loader = importlib.machinery.SourceFileLoader("frames", f"{TOP}/tools/frames")
    made = importlib.util.module_from_spec(importlib.util.spec_from_loader("frames", loader))
    loader.exec_module(made)
    return made


frames = frames_tool()
talk = frames.tool("talk.py")


class Gone(Exception):
    """There is no session, or none any more: why, in words."""


class Server:
    """The server that serves this kernel alone: one link, at a port of this machine that is free."""

    def __init__(self, program):
        self.program = program
        try:
            self.ran = subprocess.Popen([program, "serve", "0", "1"], stdin=subprocess.DEVNULL, stdout=subprocess.DEVNULL, stderr=subprocess.PIPE)
        except OSError as error:
            raise Gone(f"the server {program} can't be started: {error.strerror}") from None
        self.said = self.ran.stderr.readline().decode(errors="replace")
        found = SERVES.fullmatch(self.said)
        if not found:
            raise Gone(f"no server starts: {self.ended()}")
        self.address = talk.address_of(frames, found[1])

    def ended(self):
        """How the server ended, and what it said before. It is ended if it goes on, since its link is at an end."""
        try:
            self.ran.wait(SECONDS_TO_END)
        except subprocess.TimeoutExpired:
            self.ran.kill()
        said = (self.said if not SERVES.fullmatch(self.said) else "") + self.ran.stderr.read().decode(errors="replace")
        status = self.ran.wait()
        how = f"a signal, {-status}, stopped" if status < 0 else f"status {status} ended"
        return f"{how} {self.program}" + (f", which said: {said.strip()}" if said.strip() else "")


class Session:
    """A session that is open at a server: which host it is on, and what its replies have told."""

    def __init__(self, address, server):
        self.server, self.host, self.move = server, 0, None
        self.is_left, self.lost = False, ""
        self.told, self.asking = frames.Sessions(None), threading.Lock()
        self.link = talk.Link(frames, address, SECONDS_TO_OPEN)
        self.reply("kernel_open_request", {"host": self.host})
        self.info = self.reply("kernel_info_request", {})
        self.link.socket.settimeout(None)

    def ask(self, kind, content, kernel=None):
        """Sends a request, to the session or to that of another kernel, and gives the messages that answer it but those on busy and idle."""
        with self.asking:
            yield from self.answers(kind, content, kernel)

    def answers(self, kind, content, kernel=None):
        if self.lost:
            raise Gone(self.lost)
        try:
            for message in self.link.ask(kind, content, kernel):
                if message["header"]["msg_type"] == "node_error":
                    raise frames.Fault(frames.node_error_said(message))
                self.learn(message)
                if message["header"]["msg_type"] != "status":
                    yield message
        except frames.Stop as stop:
            self.lost = self.why(stop)
            raise Gone(self.lost) from None

    def learn(self, message):
        """Learns from a message. A move that it ends is kept as the last."""
        told, move = self.told.take(message)
        if move is not None and told.kernel == self.link.kernel:
            self.move = move
            self.host = move.hosts[1] if move.is_completed else self.host

    def reply(self, kind, content):
        """The content of the last message that answers a request."""
        return [it["content"] for it in self.ask(kind, content)][-1]

    def described(self):
        """What the replies of this session have told."""
        return self.told.of[self.link.kernel]

    def why(self, stop):
        """Why nothing comes any more."""
        if self.is_left:
            return ENDED
        return f"{stop}" + (f"; {self.server.ended()}" if self.server else "")

    def leave(self, restart):
        """Shuts the session down, if it is doing nothing, and ends the link, and the server that was started for it. A request that is under
        way gets no answer."""
        self.is_left = True
        if self.asking.acquire(blocking=False):
            self.link.socket.settimeout(SECONDS_TO_END)
            with contextlib.suppress(Gone, frames.Fault):
                list(self.answers("shutdown_request", {"restart": restart}))
            self.asking.release()
        with contextlib.suppress(OSError):
            self.link.socket.shutdown(socket.SHUT_RDWR)
        if self.server is not None:
            self.server.ran.kill()
            self.server.ran.wait()


class Opening(threading.Thread):
    """Starts or joins a server, and opens a session there, while the kernel starts."""

    def __init__(self):
        super().__init__(daemon=True)
        self.news, self.is_done = queue.SimpleQueue(), threading.Event()
        self.session, self.why = None, ""
        self.start()

    def run(self):
        try:
            self.session = self.opened()
        except (Gone, frames.Stop, frames.Fault) as wrong:
            self.why = self.why or str(wrong)
        except (OSError, ValueError, KeyError, TypeError, AttributeError, IndexError) as error:
            self.why = f"what answers there is no server of this project: {error!r}"
        self.end_waiting()

    def end_waiting(self):
        self.is_done.set()
        self.news.put(None)

    def opened(self):
        joined = os.environ.get("KUGELGLEN_SERVER")
        if joined:
            return Session(self.address_of(joined), None)
        server = Server(os.environ.get("KUGELGLEN_PROGRAM") or self.program())
        return Session(server.address, server)

    def address_of(self, joined):
        try:
            return talk.address_of(frames, joined)
        except frames.Stop:
            raise Gone(f"KUGELGLEN_SERVER is {joined!r}, which is no address, as 127.0.0.1:8765, [::1]:8765, or a port alone") from None

    def program(self):
        """The path of the program that `./notebook` runs. That it is built first is news."""
        launcher = subprocess.Popen([sys.executable, f"{TOP}/notebook", "--program"], stdin=subprocess.DEVNULL, stdout=subprocess.PIPE, stderr=subprocess.PIPE)
        said = []
        for line in launcher.stderr:
            said.append(line.decode(errors="replace"))
            if BUILDS in said[-1]:
                self.news.put(said[-1])
        if launcher.wait():
            raise Gone("".join(said).strip())
        return launcher.stdout.read().decode().rstrip("\n")

    def waited(self, tell):
        """The session, once it is open. Tells the news until then."""
        while not self.is_done.is_set() and (news := self.news.get()) is not None:
            tell(news)
        if self.session is None:
            raise Gone(self.why)
        return self.session

    def end(self, restart):
        """Ends the session. What was started for it is the kernel's to end."""
        if self.session is not None:
            self.session.leave(restart)
        else:
            self.why = self.why or ENDED
            self.end_waiting()
