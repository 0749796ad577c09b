"""The lines that begin with %: what they ask, the weights of a move, and how it is told."""
import collections
import html
import time
import uuid

from at_server import frames, talk

HOSTS = 3
COMMANDS = "the lines that begin with % are %move HOST, %move HOST --weights c b r s, and %hosts, each alone in its cell"
GREATEST_WEIGHT = 1_000_000
# A measurement grows until it takes so many seconds, or is as large as it may be.
ENOUGH, MOST_TURNS, MOST_BYTES = 0.02, 400_000, 1_000_000
COPIES, TIMES = 50, 3

Pace = collections.namedtuple("Pace", "copy byte run step")


def is_command(code):
    return code.lstrip().startswith("%")


def asked(code):
    """What a command asks: None for `%hosts`, else the host and the four weights, or None instead of these."""
    line = code.strip()
    if line == "%hosts":
        return None
    found = talk.MOVE.fullmatch(line)
    if not found:
        raise frames.Fault(COMMANDS)
    return int(found[1]), tuple(map(int, found[2].split())) if found[2] else None


def hosts_said(host):
    return "".join(f"host {it}{': the session is here' if it == host else ''}\n" for it in range(HOSTS))


# ---- the pace of the machine


class Probe:
    """A session for measuring, on the link of another."""

    def __init__(self, session):
        self.session, self.kernel, self.host = session, str(uuid.uuid4()), 0
        self.ask("kernel_open_request", {"host": 0})

    def ask(self, kind, content):
        """The seconds until a request is answered whole, and the content of its reply."""
        start = time.perf_counter()
        *_, reply = self.session.ask(kind, content, self.kernel)
        taken, content = time.perf_counter() - start, reply["content"]
        if content.get("status") != "ok":
            raise frames.Fault(f"the pace can't be measured: {content}. `--weights c b r s` gives weights")
        return taken, content

    def cell(self, code):
        return self.ask("execute_request", {"code": code})[0]

    def move(self):
        """The seconds of a move that copies all that has a version, and how many bytes it copied."""
        self.host = 1 - self.host
        taken, reply = self.ask("migrate_request", {"to": self.host, "copy_base": 0, "per_byte": 1, "run_base": GREATEST_WEIGHT, "per_step": GREATEST_WEIGHT})
        return taken, reply["cost"]


def least(measure):
    return min(measure() for _ in range(TIMES))


def grown(measure, size, most):
    """The measurement of the first size, each ten times the last, that takes long enough."""
    while (found := measure(size)) < ENOUGH and size < most:
        size = min(10 * size, most)
    return size, found


def pace_of(session):
    """The seconds that a copy, a byte, a cell that runs again and a step take on this machine."""
    probe = Probe(session)
    run = least(lambda: probe.cell("pass"))
    turns, loop = grown(lambda it: probe.cell(f"for turn in range({it}):\n    pass"), 1_000, MOST_TURNS)
    names = Probe(session)
    names.cell("\n".join(f"name_{it} = {it}" for it in range(COPIES)))
    empty, copies = least(lambda: probe.move()[0]), least(lambda: names.move()[0])
    text = Probe(session)

    def copied(size):
        text.cell(f"text = 'x' * {size}")
        return text.move()[0]

    _, long = grown(copied, 10_000, MOST_BYTES)
    _, size = text.move()
    return Pace(max(0, copies - empty) / COPIES, max(0, long - empty) / size, run, max(0, loop - run) / (2 * turns))


def weights_of(pace):
    """The weights of a pace: whole numbers in its proportions, the greatest as great as a weight may be."""
    return tuple(max(1, round(GREATEST_WEIGHT * it / max(pace))) for it in pace)


def pace_said(pace, weights, cost):
    rates = f"{1 / max(pace.byte, 1e-12):,.0f} bytes and {1 / max(pace.step, 1e-12):,.0f} steps a second"
    bases = f"{pace.copy * 1e6:,.1f} microseconds for a copy, and {pace.run * 1e6:,.1f} for a cell"
    takes = f"{cost * max(pace) / GREATEST_WEIGHT * 1e3:,.3f} milliseconds"
    return f"By the pace that was measured here, it takes some {takes}: {rates}, {bases}, as weights {' '.join(map(str, weights))}."


# ---- how a move is told


def moved_said(move):
    start, end = move.hosts
    copied = f"{frames.counted(len(move.copied), 'version')} {'was' if len(move.copied) == 1 else 'were'}" if move.copied else "nothing was"
    rerun = frames.counted(len(move.rerun), "cell") if move.rerun else "no cell"
    return f"The session moved from host {start} to host {end}: {copied} copied, and {rerun} ran again."


def cell_told(session, number):
    code = session.code_of(number)
    return f"cell {number}" + (f": {code}" if code else "")


def listed(numbers, told):
    lines = [told(it) for it in numbers[: frames.MOST_SHOWN]]
    return frames.parts_shown(lines, frames.MOST_SHOWN, len(numbers)) or ["nothing"]


def rows_of(session, move):
    """The plan as a table: of each row its head and its lines."""
    arcs = [f"{start} to {end} {carried:,}" for start, end, carried in move.arcs]
    return [
        ("copied", listed(move.copied, lambda it: frames.version_told(session, it))),
        ("run again", listed(move.rerun, lambda it: cell_told(session, it))),
        ("cost", [f"{move.cost:,}"]),
        ("flow", [f"{move.value:,}: " + ("no plan is cheaper" if move.value == move.cost else "it isn't the cost")]),
        ("arcs", ["; ".join(frames.parts_shown(arcs, frames.MOST_SHOWN, len(arcs))) or "none carries anything"]),
        *(("doubt", [it]) for it in frames.doubts(move)),
    ]


def as_text(said, rows):
    lines = [f"{head if not index else '':<10} {line}" for head, told in rows for index, line in enumerate(told)]
    return "\n".join([said, *map(frames.visible, lines)])


def as_html(said, rows):
    left = 'style="text-align: left; vertical-align: top"'
    cells = [f"<tr><th {left}>{head}</th><td {left}>{'<br>'.join(html.escape(frames.visible(it)) for it in told)}</td></tr>" for head, told in rows]
    return f"<p>{html.escape(said)}</p>\n<table>\n" + "\n".join(cells) + "\n</table>"


def outputs_of(session, move, said):
    """What a notebook shows of a completed move: the sentence with the table, and the picture."""
    rows = rows_of(session, move)
    start, end = move.hosts
    return [
        {"text/plain": as_text(said, rows), "text/html": as_html(said, rows)},
        {"text/plain": f"<picture of the move from host {start} to host {end}>", "image/svg+xml": frames.Picture(session, move).text()},
    ]


def refused_said(host, reply):
    """Why the session stays, and which variables hold it, if it is they."""
    stays = f"the session stays on host {host}: {frames.refusal_said(reply)}"
    if reply["ename"] != "Stuck":
        return stays
    names = frames.names_said(reply["names"], reply["size"])
    return f"{names} {'holds' if reply['size'] == 1 else 'hold'} the session on host {host}: {frames.stuck_said(reply)}"
