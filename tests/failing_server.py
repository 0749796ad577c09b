#!/usr/bin/env python3
"""A server that fails as it is asked to, for tests/jupyter: it takes the words `serve 0 1`, and of the messages of docs/PROTOCOL.md it
knows those that the Jupyter kernel needs. A cell asks for a fault:

  die        the session dies of want of memory, and then it is dead
  wait       the input is told, and then nothing is answered any more
  end        the server ends with status 3
  garbage    what isn't a frame is sent
  nothing    the reply says nothing

Any other cell is answered by an empty reply. Python 3, standard library.
"""
import json
import socket
import struct
import sys

INFO = {"implementation": "elastic_notebook", "implementation_version": "1", "language_info": {"name": "python"}}
DEAD = {"ename": "DeadKernel", "evalue": "kernel is dead", "traceback": ["DeadKernel: kernel is dead"], "status": "error"}
DIED = {"ename": "KernelDied", "evalue": "out of memory", "traceback": ["KernelDied: out of memory"], "status": "error"}


class Link:
    def __init__(self, peer):
        self.peer, self.count, self.is_dead = peer, 0, False

    def send(self, request, kind, content):
        header = {"msg_type": kind, "msg_id": "r"}
        body = json.dumps({"channel": "shell", "content": content, "header": header, "kernel": request["kernel"], "parent_header": request["header"]}).encode()
        self.peer.sendall(struct.pack(">I", len(body)) + body)

    def answer(self, request, kind, content):
        self.send(request, "status", {"execution_state": "busy"})
        self.send(request, kind, content)
        self.send(request, "status", {"execution_state": "idle"})

    def cell(self, request):
        code = request["content"]["code"]
        if code == "end":
            sys.exit(3)
        if code == "garbage":
            self.peer.sendall(b"HTTP/1.1 400 Bad Request\r\n\r\n")
        elif code == "wait":
            self.send(request, "execute_input", {"code": code, "execution_count": self.count + 1})
        else:
            self.answer(request, "execute_reply", self.reply_to(code))

    def reply_to(self, code):
        if code == "nothing":
            return {}
        if code == "die" or self.is_dead:
            reply, self.is_dead = DEAD if self.is_dead else DIED, True
            return {**reply, "execution_count": self.count}
        self.count += 1
        return {"status": "ok", "execution_count": self.count, "user_expressions": {}}

    def take(self, request):
        kind = request["header"]["msg_type"]
        if kind == "execute_request":
            self.cell(request)
        else:
            replies = {"kernel_open_request": {"host": 0, "status": "ok"}, "kernel_info_request": INFO}
            self.answer(request, kind.replace("request", "reply"), replies.get(kind, {"status": "ok"}))


def main():
    with socket.create_server(("127.0.0.1", 0)) as listening:
        print(f"elastic_notebook: serves at 127.0.0.1:{listening.getsockname()[1]}", file=sys.stderr, flush=True)
        peer, _ = listening.accept()
    peer.setsockopt(socket.IPPROTO_TCP, socket.TCP_NODELAY, 1)
    link, replies = Link(peer), peer.makefile("rb")
    while len(length := replies.read(4)) == 4:
        link.take(json.loads(replies.read(struct.unpack(">I", length)[0])))


if __name__ == "__main__":
    main()
