"""Checkpoints, written once more: every feasible plan of a session's history, what it costs, and the bytes of the session under it;
what history_show may print of a session; what bytes are read as, and what they are restored to.

Plans and bytes go by docs/PLANNING.md, docs/CHECKPOINTS.md and tests/histories.py alone, and all sets of versions and cells are tried.
Reading and restoring go by the same documents and docs/REPLAY.md, with the rules of tests/reader.py and tests/cells.py for the codes
in the bytes. It shares nothing with the program, nor with tools/checkpoint. Python 3, standard library.
"""
import ast
import collections
import functools
import itertools
import struct

import histories
import reader

cells = histories.cells
MOST_METER, MOST_STEPS, LONGEST_CODE = 16_777_216, 1_000_000, 262_148
# The version of the format that the program writes, and those that it reads.
WRITTEN, VERSIONS = 2, (1, 2)
PART, ABSENT, HANDLE = 0, 1, 2
NO_CHECKPOINT, DREW_AGAIN, UNLIKE = 7, 8, 9
Record = collections.namedtuple("Record", "code meter steps drew rerun reads missing")
Version = collections.namedtuple("Version", "writer replaced kind size names part part_size")
Part = collections.namedtuple("Part", "names values objects")
Checkpoint = collections.namedtuple("Checkpoint", "count meter cells versions")


def subsets(of):
    return itertools.chain.from_iterable(itertools.combinations(of, size) for size in range(len(of) + 1))


def feasible_plans(records, versions):
    """The pairs of copied versions and cells that run again."""
    active = [v for v, it in enumerate(versions, 1) if not it["replaced"]]
    for again in subsets([c for c, (_, _, drew, _, _) in enumerate(records, 1) if not drew]):
        reads = {v for c in again for v in records[c - 1][3]}
        if any(versions[v - 1]["replaced"] and versions[v - 1]["by"] not in again for v in reads):
            continue
        for copied in subsets([v for v in active if not versions[v - 1]["handle"]]):
            if all(v in copied or versions[v - 1]["by"] in again for v in active):
                yield copied, again


def cost(records, versions, plan, weights):
    """What a plan costs. An absent version is copied for nothing."""
    copy_base, per_byte, run_base, per_step = weights
    copied, again = plan
    copies = sum(copy_base + per_byte * versions[v - 1]["size"] for v in copied if not versions[v - 1]["absent"])
    return copies + sum(run_base + per_step * records[c - 1][1] for c in again)


def number(it):
    return struct.pack(">I", it)


def name_bytes(name):
    return bytes([len(name.encode())]) + name.encode()


def list_bytes(items, one):
    return number(len(items)) + b"".join(map(one, items))


def copy_bytes(session, version, spelled):
    if version["absent"]:
        return list_bytes(version["names"], name_bytes) + b"\7" + number(0)
    return histories.part_bytes(version["names"], [session.globals[name] for name in version["names"]], spelled)


def numbered_in(texts):
    """How a text is spelled by its number among these, to which a new one is added."""
    return lambda text: number(texts.setdefault(text if isinstance(text, bytes) else text.encode(), len(texts)))


def cells_and_versions(codes, session, records, versions, copied, again, spelled):
    out = number(len(codes))
    for c, (code, (meter, steps, drew, reads, misses)) in enumerate(zip(codes, records), 1):
        out += spelled(code) + number(meter) + number(steps) + bytes([drew, c in again])
        out += list_bytes(reads, number) + list_bytes(misses, name_bytes)
    out += number(len(versions))
    for v, it in enumerate(versions, 1):
        kind = 1 if it["absent"] else 2 if it["handle"] else 0
        out += number(it["by"]) + number(it["replaced"]) + bytes([kind]) + number(it["size"]) + list_bytes(it["names"], name_bytes)
        out += b"\1" + copy_bytes(session, it, spelled) if v in copied else b"\0"
    return out


def written(codes, session, records, versions, copied, again, version=WRITTEN):
    """The bytes of a session under a plan, in a version of the format."""
    head = b"ENCK" + struct.pack(">H", version) + number(len(codes)) + number(session.meter)
    if version == 1:
        return head + cells_and_versions(codes, session, records, versions, copied, again, histories.text_bytes)
    texts = {}
    rest = cells_and_versions(codes, session, records, versions, copied, again, numbered_in(texts))
    return head + list_bytes(texts, histories.text_bytes) + rest


# ---- what history_show prints of a session

# Weights under which the planner copies every version that can be copied, and runs again only what the handles need: nothing is carried
# along an arc of weight 0, so no such version is reached from the source.
COPYING = [0, 0, 1, 0]


def session_lines(codes):
    """The lines that history_show prints of a session with these cells under these weights, without those of the flow: its graph, and the
    plan with its bytes, or that a version is stuck."""
    session, records, versions = histories.history(codes)
    graph, plans = histories.lines(records, versions), list(feasible_plans(records, versions))
    if not plans:
        return [*graph, "stuck"]
    copied, again = max(plans, key=lambda it: (len(it[0]), -len(it[1])))
    costs = cost(records, versions, (copied, again), COPYING)
    copies = [f"copy v{v} {' '.join(versions[v - 1]['names'])}" for v in copied]
    data = written(codes, session, records, versions, copied, again)
    return [*graph, f"cost {costs} flow {costs}", *copies, *(f"run c{c}" for c in again), f"checkpoint {data.hex()}"]


def without_flow(lines):
    """Many flows are greatest, and of what is stuck one pair is named."""
    return ["stuck" if it.startswith("stuck ") else it for it in lines if not it.startswith("arc ")]


# ---- what bytes are read as


class Bad(Exception):
    """Why bytes are no checkpoint, as a line says it."""


def is_identifier(name):
    return reader.NAME.fullmatch(name) is not None


def is_variable(name):
    return is_identifier(name) and name not in reader.KEYWORDS


def ascends(items):
    return all(one < other for one, other in zip(items, items[1:]))


@functools.lru_cache(None)
def is_read(code, top):
    """Whether the code of a cell, or of one function alone, has a tree."""
    return reader.verdict(code, top)[0] == "accepted"


class Bytes:
    """Bytes that are read from the front. What is wrong with a field is told at the field's first byte."""

    def __init__(self, data, at=0):
        self.data, self.at = data, at

    def bad(self, place):
        return Bad(f"bad checkpoint at {place}")

    def take(self, count, field):
        if count > len(self.data) - self.at:
            raise self.bad(field)
        self.at += count
        return self.data[self.at - count : self.at]

    def byte(self, most=255):
        field = self.at
        it = self.take(1, field)[0]
        if it > most:
            raise self.bad(field)
        return it

    def number(self, most=2**32 - 1):
        field = self.at
        it = int.from_bytes(self.take(4, field), "big")
        if it > most:
            raise self.bad(field)
        return it

    def spelled(self, field, count, longest=2**32 - 1):
        data = self.take(count, field)
        try:
            if count <= longest:
                return data.decode()
        except UnicodeDecodeError:
            pass
        raise self.bad(field)

    def text(self, longest=2**32 - 1):
        field = self.at
        return self.spelled(field, self.number(), longest)

    def name(self):
        field = self.at
        return self.spelled(field, self.byte())

    def many(self, one):
        return [one() for _ in range(self.number())]


class Texts:
    """The table of texts of version 2, with their places, and how many of them were referred to."""

    def __init__(self):
        self.all, self.places, self.used = [], [], 0

    def of_number(self, number):
        """The text of a number that is at most that of the texts referred to so far, or None."""
        if number > self.used or number >= len(self.all):
            return None
        self.used = max(self.used, number + 1)
        return self.all[number]


class PartBytes(Bytes):
    """The bytes of a part, whose texts are in a table or, if there is none, in the part. Whatever is wrong with it is told at its first byte.
    Its size is that of version 1."""

    def __init__(self, data, at, texts):
        super().__init__(data, at)
        self.first, self.met, self.most = at, 0, 2**32
        self.texts, self.elsewhere = texts, 0

    def size(self):
        """In version 1 the four bytes of a text's number are its length, and its bytes come after that."""
        return self.at - self.first + self.elsewhere

    def text(self):
        if self.texts is None:
            return super().text()
        it = self.texts.of_number(self.number())
        self.refuse_if(it is None)
        self.elsewhere += len(it.encode())
        return it

    def bad(self, place):
        return super().bad(self.first)

    def refuse_if(self, is_wrong):
        if is_wrong:
            raise self.bad(self.at)

    def key(self, tag):
        self.refuse_if(tag > 4)
        if tag < 3:
            return (None, False, True)[tag]
        return int.from_bytes(self.take(16, self.at), "big", signed=True) if tag == 3 else self.text()

    def value(self, is_alone=False):
        tag = self.byte()
        if tag == 5:
            number = self.number()
            self.refuse_if(number > self.met or number >= self.most)
            self.met = max(self.met, number + 1)
            return "object", number
        if tag == 6:
            return "builtin", self.byte(len(histories.ORDER) - 1)
        return ("none",) if tag == 7 and is_alone else ("plain", self.key(tag))

    def pairs(self):
        found = {}
        for _ in range(self.number()):
            key = self.key(self.byte())
            # Equal keys are equal in Python too: True and 1 are one key.
            self.refuse_if(key in found)
            found[key] = self.value()
        return found

    def object(self, number):
        tag = self.byte()
        self.refuse_if(tag not in (16, 17, 18, 19) or number >= self.met)
        if tag in (16, 19):
            return "list" if tag == 16 else "tuple", self.many(self.value)
        if tag == 17:
            return "dict", self.pairs()
        source = self.text()
        self.refuse_if(not is_read(source, "alone"))
        return "def", source

    def part(self):
        names = self.many(self.name)
        self.refuse_if(not names or not ascends(names) or not all(map(is_variable, names)))
        values = [self.value(len(names) == 1) for _ in names]
        self.most = self.number()
        self.refuse_if(self.most < self.met)
        return Part(names, values, [self.object(number) for number in range(self.most)])


class CheckpointBytes(Bytes):
    texts = None

    def table(self):
        texts = Texts()
        for _ in range(self.number()):
            field = self.at
            it = self.text()
            if it in texts.all:
                raise self.bad(field)
            texts.all.append(it)
            texts.places.append(field)
        return texts

    def code(self):
        if self.texts is None:
            return self.text(LONGEST_CODE)
        field = self.at
        it = self.texts.of_number(self.number())
        if it is None or len(it.encode()) > LONGEST_CODE:
            raise self.bad(field)
        return it

    def cell(self):
        code, meter, steps = self.code(), self.number(MOST_METER), self.number(MOST_STEPS)
        drew, rerun = self.byte(1), self.byte(1)
        return Record(code, meter, steps, drew, rerun, self.many(self.number), self.many(self.name))

    def version(self):
        writer, replaced, kind = self.number(), self.number(), self.byte(2)
        size = self.number(0 if kind else 2**32 - 1)
        names = self.many(self.name)
        if not self.byte(1):
            return Version(writer, replaced, kind, size, names, None, 0)
        inside = PartBytes(self.data, self.at, self.texts)
        part = inside.part()
        self.at = inside.at
        return Version(writer, replaced, kind, size, names, part, inside.size())

    def checkpoint(self):
        if not self.data.startswith(b"ENCK") and not b"ENCK".startswith(self.data):
            raise self.bad(0)
        self.take(4, 0)
        form = int.from_bytes(self.take(2, 4), "big")
        if form not in VERSIONS:
            raise self.bad(4)
        count, meter = self.number(), self.number(MOST_METER)
        if form == 2:
            self.texts = self.table()
        read = Checkpoint(count, meter, self.many(self.cell), self.many(self.version))
        if self.texts is not None and self.texts.used < len(self.texts.all):
            raise self.bad(self.texts.places[self.texts.used])
        if self.at < len(self.data):
            raise self.bad(self.at)
        return read


def numbered(items):
    return list(enumerate(items, 1))


def has_bad_names(it):
    return not it.names or not ascends(it.names) or not all(map(is_variable, it.names)) or it.kind == ABSENT and len(it.names) > 1


def has_bad_writer(read, v, it):
    is_no_cell = not 1 <= it.writer <= len(read.cells) or it.replaced and not it.writer < it.replaced <= len(read.cells)
    before = read.versions[v - 2] if v > 1 else None
    return is_no_cell or before is not None and not (before.writer, before.names[0]) < (it.writer, it.names[0])


def is_replaced_otherwise(read, v, it):
    """Whether the version isn't replaced just by the next cell that wrote one of its names, or that cell didn't write all of them; or
    another version of its writer has one of them."""
    for name in it.names:
        after = [other for other in read.versions[v:] if name in other.names]
        if after and after[0].writer != it.replaced:
            return True
        if it.replaced and not any(other.writer == it.replaced and name in other.names for other in read.versions):
            return True
        if any(u != v and other.writer == it.writer and name in other.names for u, other in numbered(read.versions)):
            return True
    return False


def can_be_read(read, c, v):
    if not 1 <= v <= len(read.versions):
        return False
    it = read.versions[v - 1]
    return it.writer < c and (not it.replaced or it.replaced >= c)


def has_bad_reads(read, c, cell):
    known = {name for it in read.versions if it.writer < c for name in it.names}
    are_wrong = not ascends(cell.reads) or not all(can_be_read(read, c, v) for v in cell.reads)
    return are_wrong or not ascends(cell.missing) or not all(is_identifier(it) and it not in known for it in cell.missing)


def is_unlike_its_part(it):
    """Whether a copied version can't be copied, or isn't as its part."""
    has_none = it.part.values[0] == ("none",)
    is_otherwise = not has_none if it.kind == ABSENT else has_none or it.size != it.part_size
    return it.replaced != 0 or it.kind == HANDLE or it.names != it.part.names or is_otherwise


def is_lost(read, it):
    return not it.replaced and it.part is None and not read.cells[it.writer - 1].rerun


def cant_run_again(read, cell):
    reads = [read.versions[v - 1] for v in cell.reads]
    return bool(cell.drew) or any(it.replaced and not read.cells[it.writer - 1].rerun for it in reads)


def refuse_first(what, items, is_wrong):
    for number, it in items:
        if is_wrong(number, it):
            raise Bad(f"bad checkpoint in {what} {number}")


def read(data):
    """The checkpoint that bytes are: the fields in their order, then the graph in four walks, then the plan."""
    it = CheckpointBytes(data).checkpoint()
    versions, recorded = numbered(it.versions), numbered(it.cells)
    refuse_first("version", versions, lambda v, version: has_bad_names(version))
    refuse_first("version", versions, lambda v, version: has_bad_writer(it, v, version))
    refuse_first("version", versions, lambda v, version: is_replaced_otherwise(it, v, version))
    refuse_first("cell", recorded, lambda c, cell: has_bad_reads(it, c, cell))
    refuse_first("version", versions, lambda v, version: version.part is not None and is_unlike_its_part(version))
    refuse_first("version", versions, lambda v, version: is_lost(it, version))
    refuse_first("cell", recorded, lambda c, cell: cell.rerun and cant_run_again(it, cell))
    return it


def reading(data):
    """The lines that history_show says of bytes, and the status that they have from `restore` and `plan`."""
    try:
        it = read(data)
    except Bad as bad:
        return [str(bad)], NO_CHECKPOINT
    copied = sum(version.part is not None for version in it.versions)
    return [f"ok count {it.count} meter {it.meter} cells {len(it.cells)} versions {len(it.versions)} copied {copied}"], 0


# ---- what bytes are restored to


def load(session, part):
    """Puts a part into a session: all that its names reach is new."""
    objects = []
    for kind, given in part.objects:
        if kind == "def":
            tree = ast.parse(given)
            session.elifs |= cells.elifs_of(tree, given)
            objects.append(cells.Function(tree.body[0], given.encode()))
        else:
            objects.append({"list": cells.ListOf, "tuple": cells.TupleOf}[kind]([]) if kind != "dict" else cells.DictOf())

    def value(it):
        if it[0] == "object":
            return objects[it[1]]
        return cells.BUILTINS[histories.ORDER[it[1]]] if it[0] == "builtin" else it[1]

    for made, (kind, given) in zip(objects, part.objects):
        if kind in ("list", "tuple"):
            made.items = list(map(value, given))
        elif kind == "dict":
            made.pairs = {key: value(it) for key, it in given.items()}
    session.globals.update(zip(part.names, map(value, part.values)))


def give_back(session, it):
    """Gives a copied version back: an absent one takes its name's value away."""
    if it.kind == ABSENT:
        session.globals.pop(it.names[0], None)
    else:
        load(session, it.part)


def is_as_said(session, parts, it):
    """Whether the state is as a version says that holds at the end."""
    if it.kind == ABSENT:
        return it.names[0] not in session.globals
    objects = next((objects for names, objects in parts if names == it.names), None)
    if objects is None:
        return False
    has_handle = any(type(one) is cells.Handle for one in objects)
    size = 0 if has_handle else len(histories.part_bytes(it.names, [session.globals[name] for name in it.names]))
    return (has_handle, size) == (it.kind == HANDLE, it.size)


def shown(session, value):
    try:
        return cells.Cell(session, "").show(value, 1)
    except cells.Raised as error:
        return error.name


def restored(data):
    """The lines that `restore` says of bytes, and its status."""
    try:
        it = read(data)
    except Bad as bad:
        return [str(bad)], NO_CHECKPOINT
    session = cells.Session()
    session.words = []
    for c, cell in numbered(it.cells):
        if cell.rerun:
            session.meter = cell.meter
            if is_read(cell.code, "cell") and histories.run(session, cell.code).drew:
                return [f"draws again in cell {c}"], DREW_AGAIN
        for version in it.versions:
            if version.writer == c and version.part is not None:
                give_back(session, version)
    parts = histories.parts_of(session.globals)
    active = [(v, version) for v, version in numbered(it.versions) if not version.replaced]
    for v, version in active:
        if not is_as_said(session, parts, version):
            return [f"unlike in version {v}"], UNLIKE
    names = sorted(session.globals, key=str.encode)
    for name in names:
        if not any(name in version.names for _, version in active):
            return [f"loose name {name}"], UNLIKE
    return [f"{name} = {shown(session, session.globals[name])}" for name in names] + [f"count {it.count} meter {it.meter}"], 0
