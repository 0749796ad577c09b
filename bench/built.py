"""The built programs that the benches measure and that tests/run asks, and what the benches give them."""
import collections
import importlib.machinery
import importlib.util
import json
import os
import re
import struct
import subprocess
import sys
import time

TOP = os.path.dirname(os.path.dirname(os.path.realpath(__file__)))
# What a program is given as `rt run` starts it once it is built.
WORDS = {"elastic_notebook": ["run"], "plan_bench": [], "reader_show": [], "frames_show": [], "session_show": [], "history_show": []}


def launcher():
    loader = importlib.machinery.SourceFileLoader("notebook", f"{TOP}/notebook")
    made = importlib.util.module_from_spec(importlib.util.spec_from_loader("notebook", loader))
    loader.exec_module(made)
    return made


def is_newest(program, crate):
    """Whether the program is there and newer than every source of its crate and of those below."""
    it = launcher()
    it.CRATE = crate
    if not os.access(program, os.X_OK):
        return False
    built = os.stat(program).st_mtime
    return all(os.stat(path).st_mtime <= built for at, files in it.files_of(it.PROVED) for path in [at, *files])


def program_of(crate):
    """The path of a crate's proved program: what .ci/run or an earlier build made, or else built now."""
    it = launcher()
    if crate == it.CRATE and it.is_kept(f"{it.KEPT}/proved", it.sum_of(it.PROVED)):
        return it.program_at(f"{it.KEPT}/proved")
    program = f"{TOP}/crates/{crate}/out/{crate}"
    if not is_newest(program, crate):
        who = os.path.basename(sys.argv[0])
        print(f"{who}: building {crate} by `rt run`: some minutes after earlier checks, hours if nothing is proved yet", file=sys.stderr, flush=True)
        try:
            ran = subprocess.run(["rt", "run", "--", *WORDS[crate]], cwd=f"{TOP}/crates/{crate}", stdin=subprocess.DEVNULL, stdout=subprocess.PIPE, stderr=subprocess.STDOUT)
        except OSError as error:
            sys.exit(f"{who}: {crate} isn't built, and the toolchain's command rt can't be started: {error.strerror}")
        if not os.access(program, os.X_OK):
            sys.exit(f"{who}: {crate} can't be built; rt run says:\n{ran.stdout.decode(errors='replace')[-2000:]}")
    return program


def help_asked(text):
    """Prints the help if it is asked for, and ends."""
    if sys.argv[1:] in (["-h"], ["--help"]):
        print(text, end="")
        sys.exit(0)
    if sys.argv[1:]:
        print(text, end="", file=sys.stderr)
        sys.exit(64)


# ---- runs of the server

KERNEL = "11111111-1111-4111-8111-111111111111"
# Starts a program with words between two files and waits for it; prints its status, the seconds from its start to its end, and the
# peak memory in KiB, the program's and its own.
WAITER = """
import os, sys, time
given, wrote, *words = sys.argv[1:]
moved = [(os.POSIX_SPAWN_OPEN, 0, given, os.O_RDONLY, 0), (os.POSIX_SPAWN_OPEN, 1, wrote, os.O_WRONLY | os.O_TRUNC, 0)]
start = time.perf_counter()
child = os.posix_spawn(words[0], words, {}, file_actions=moved)
_, status, usage = os.wait4(child, 0)
taken = time.perf_counter() - start
own = next(it.split()[1] for it in open("/proc/self/status") if it.startswith("VmHWM"))
print(os.waitstatus_to_exitcode(status), taken, usage.ru_maxrss, own)
"""


def frame(name, kind, content, kernel=KERNEL):
    """A request with this msg_id."""
    header = {"date": "", "msg_id": name, "msg_type": kind, "session": "s", "username": "u", "version": "5.3"}
    body = json.dumps({"channel": "shell", "content": content, "header": header, "kernel": kernel}, separators=(",", ":")).encode()
    return struct.pack(">I", len(body)) + body


def opening(kernel=KERNEL):
    return frame("m0", "kernel_open_request", {"host": 0}, kernel)


def cell(number, code):
    return frame(f"m{number}", "execute_request", {"code": code})


def session_of(codes):
    return opening() + b"".join(cell(number, code) for number, code in enumerate(codes, 1))


# ---- a stream of cells as people write them: a function, a dict of lists that grows, and a total that is printed

FIRST = """def add(d, k, v):
    if k in d:
        d[k].append(v)
    else:
        d[k] = [v]
d = {}
total = 0"""


def made_code(number):
    """The code of the cell with this number, from 1."""
    if number == 1:
        return FIRST
    return [f'add(d, "k{number % 7}", {number})', "total += len(d)", "for k in d:\n    total += len(d[k])", "print(total)"][number % 4]


# Weights that say nothing of time: one for each byte, step, copy and cell that runs again.
ONES = {"copy_base": 1, "per_byte": 1, "run_base": 1, "per_step": 1}


def made(cells, every=0, weights=ONES):
    """An opening and so many cells, from two frontends in turn; if `every` isn't 0, a move to the next of three hosts after so many."""

    def one(kind, name, session, content):
        header = {"date": "", "msg_id": name, "msg_type": kind, "session": session, "username": "made", "version": "5.3"}
        message = {"channel": "shell", "content": content, "header": header, "kernel": KERNEL}
        body = json.dumps(message, separators=(",", ":")).encode()
        return struct.pack(">I", len(body)) + body

    yield one("kernel_open_request", "o", "f1", {"host": 0})
    for number in range(1, cells + 1):
        yield one("execute_request", f"c{number}", "f1" if number % 2 else "f2", {"code": made_code(number)})
        if every and number % every == 0:
            yield one("migrate_request", f"m{number}", "f1", {"to": number // every % 3, **weights})


def least(call):
    """The least of three times, and what the call gives."""
    times = []
    for _ in range(3):
        start = time.perf_counter()
        given = call()
        times.append(time.perf_counter() - start)
    return min(times), given


def answered(program, words, data):
    """What the program writes. It has to end well, and no cell may fail."""
    done = subprocess.run([program, *words], input=data, stdout=subprocess.PIPE)
    who = os.path.basename(sys.argv[0])
    if done.returncode:
        sys.exit(f"{who}: {words[0] if words else os.path.basename(program)} ended with status {done.returncode}")
    if b'"status":"error"' in done.stdout:
        said = re.search(rb'"ename":"[^"]*","evalue":"[^"]{0,200}', done.stdout)
        sys.exit(f"{who}: a cell failed: {said[0].decode() if said else ''}")
    return done.stdout


# How a run went: its status, its seconds, and the peak memory in MiB, the program's and that of the process that started it.
Waited = collections.namedtuple("Waited", "status seconds peak own")


def waited(given, wrote, *words):
    """Runs a program between two files."""
    told = subprocess.run([sys.executable, "-ISc", WAITER, given, wrote, *words], stdout=subprocess.PIPE, check=True)
    status, seconds, peak, own = told.stdout.split()
    return Waited(int(status), float(seconds), int(peak) / 1024, int(own) / 1024)
