"""The Jupyter kernel: turns Jupyter's requests into requests to a session of the server, and its replies into Jupyter's.

It is started by Jupyter, as `tools/jupyter/install` says in the kernelspec. docs/JUPYTER.md tells what it does.
"""
import os
import sys

sys.path.insert(0, os.path.dirname(os.path.realpath(__file__)))
from at_server import Gone, Opening, frames
import moving

# (the server starts while the libraries are read)
OPENING = Opening()
# (the kernel has no debugger and no completion, and to read these takes a third of the start)
sys.modules["debugpy"] = sys.modules["jedi"] = None

from ipykernel.kernelapp import IPKernelApp
from ipykernel.kernelbase import Kernel

NO_INTERRUPT = (
    "A cell can't be interrupted here: it goes on, and ends by itself, at the latest after 1,000,000 steps. To end it now, restart the "
    "kernel; the variables are lost then.\n"
)
# What is raised if a reply isn't as docs/PROTOCOL.md says.
NO_REPLY = (ValueError, KeyError, TypeError, AttributeError, IndexError, RecursionError)
RESTART = "Restart the kernel to begin anew; the variables are lost."


class Kugelglen(Kernel):
    """A session of the server as a kernel."""

    implementation, implementation_version = "elastic_notebook", "1"
    language_info = {"name": "python", "version": "3", "mimetype": "text/x-python", "file_extension": ".py"}
    banner = "Kugelglen: a session that moves to another host. %move HOST moves it, and %hosts says where it is."
    count, is_running, pace = 0, False, None
    # (the time that a kernel waits for what was written to its own standard output: nothing is)
    _execute_sleep = 0

    # ---- what is sent

    def publish(self, kind, content):
        self.send_response(self.iopub_socket, kind, content, ident=self._topic(kind))

    def say(self, text, stream="stderr"):
        self.publish("stream", {"name": stream, "text": text})

    def failed(self, ename, evalue, traceback, silent):
        """Shows an error, and gives the reply to its cell."""
        error = {"ename": ename, "evalue": evalue, "traceback": traceback}
        if not silent:
            self.publish("error", error)
        return {"status": "error", "execution_count": self.count, **error}

    def _publish_execute_input(self, code, parent, execution_count):
        """The server tells the input of a cell, with its count."""

    # ---- requests

    @property
    def kernel_info(self):
        session = OPENING.session
        told = ("implementation", "implementation_version", "language_info")
        return {**super().kernel_info, **{it: session.info[it] for it in told if session and it in session.info}}

    def do_execute(self, code, silent, store_history=True, user_expressions=None, allow_stdin=False):
        self.is_running = True
        try:
            session = OPENING.waited(self.say)
            if moving.is_command(code):
                return self.command(session, code, silent)
            return self.cell(session, code, silent, store_history)
        except Gone as gone:
            return self.failed("NoServer", str(gone), [f"NoServer: {gone}", RESTART], silent)
        except frames.Fault as fault:
            return self.failed("NotDone", str(fault), [f"NotDone: {fault}"], silent)
        except NO_REPLY as error:
            return self.failed("NoReply", repr(error), [f"NoReply: what the server answers is no reply: {error!r}", RESTART], silent)
        finally:
            self.is_running = False
            self.execution_count = self.count

    def cell(self, session, code, silent, store_history):
        """Runs a cell, and passes on what it is answered."""
        if frames.LONE.search(code):
            raise frames.Fault("the cell holds half of a pair of \\u escapes, which is no character")
        is_told, reply = silent, None
        for message in session.ask("execute_request", {"code": code, "silent": silent, "store_history": store_history}):
            kind, content = message["header"]["msg_type"], message["content"]
            if kind in ("error", "execute_reply") and "ename" in content:
                content = {**content, "traceback": self.lines_of(content, code)}
            if kind == "execute_reply":
                reply = content
            else:
                is_told = is_told or kind == "error"
                self.publish(kind, content)
        self.count = reply["execution_count"]
        if not is_told and reply["status"] == "error":
            # (a session that died or is dead says so in the reply alone)
            return self.failed(reply["ename"], reply["evalue"], [*reply["traceback"], RESTART], silent)
        return reply

    def lines_of(self, error, code):
        """An error, with its place in the code if it has one."""
        lines = frames.error_said(error, code).split("\n")
        if error["evalue"] == "cell too long":
            lines.append(f"a cell has at most {frames.LONGEST_CODE:,} bytes, and this one has {len(code.encode()):,} bytes")
        return lines

    def do_is_complete(self, code):
        session = OPENING.session
        if session is None or moving.is_command(code) or frames.LONE.search(code):
            return {"status": "complete" if moving.is_command(code) else "unknown"}
        try:
            content = session.reply("is_complete_request", {"code": code})
        except (Gone, frames.Fault, *NO_REPLY):
            return {"status": "unknown"}
        return {"status": "unknown"} if content["status"] == "error" else content

    def do_shutdown(self, restart):
        OPENING.end(restart)
        return {"status": "ok", "restart": restart}

    async def interrupt_request(self, stream, ident, parent):
        if self.is_running:
            self.say(NO_INTERRUPT)
        content = {"status": "error", "ename": "NoInterrupt", "evalue": NO_INTERRUPT.strip(), "traceback": []}
        self.session.send(stream, "interrupt_reply", content, parent, ident=ident)

    def pre_handler_hook(self):
        """A signal interrupts nothing either."""

    def post_handler_hook(self):
        """As before the handler."""

    # ---- moves

    def command(self, session, code, silent):
        """Does what a line with % asks. It is no cell of the session, and counts as none."""
        asked = moving.asked(code)
        if not silent:
            self.publish("execute_input", {"code": code, "execution_count": self.count})
        if asked is None:
            self.say(moving.hosts_said(session.host), "stdout")
        else:
            reply = self.moved(session, *asked)
            if reply["status"] == "error":
                return self.failed(reply["ename"], reply["evalue"], [f"{reply['ename']}: {moving.refused_said(session.host, reply)}"], silent)
        return {"status": "ok", "execution_count": self.count, "payload": [], "user_expressions": {}}

    def moved(self, session, host, weights):
        """Moves the session, shows the move, and gives the reply."""
        pace = None
        if weights is None:
            pace = self.pace = self.pace or moving.pace_of(session)
            weights = moving.weights_of(pace)
        reply = session.reply("migrate_request", {"to": host, **dict(zip(moving.talk.WEIGHTS, weights))})
        if reply["status"] == "ok":
            said = moving.moved_said(session.move) + (f" {moving.pace_said(pace, weights, reply['cost'])}" if pace else "")
            for data in moving.outputs_of(session.described(), session.move, said):
                self.publish("display_data", {"data": data, "metadata": {}})
        return reply


if __name__ == "__main__":
    IPKernelApp.launch_instance(kernel_class=Kugelglen)
