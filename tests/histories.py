#!/usr/bin/env python3
"""The rules of the history graph, written once more: what history_show is to print, worked out without it.

  tests/histories.py CODE ..     the graph of a session with these cells

It goes by docs/HISTORY.md and docs/LANGUAGE.md alone: after each cell it goes over the whole state, and compares it with the one
before. The cells run by the rules of tests/cells.py, which are watched here. A session draws 7, 8 and 9, and then its draws fail.
Python 3, standard library.
"""
import ast
import itertools
import struct
import sys

import cells

OBJECTS = (*cells.SEQUENCES, cells.DictOf, cells.Function, cells.Handle)
ORDER = "print len str repr int range draw handle tell".split()
CHANGES = "append insert pop extend clear".split()


class Watched(cells.Cell):
    """A cell that notes what it looks up first, binds and changes, and whether it draws."""

    def __init__(self, session, code):
        super().__init__(session, code)
        self.looked, self.bound, self.changed, self.drew = set(), set(), [], False

    def is_global(self, name):
        return self.frame is None or name not in self.frame

    def look(self, name):
        if self.is_global(name) and name not in self.bound:
            self.looked.add(name)
        return super().look(name)

    def bind(self, name, value):
        super().bind(name, value)
        if self.is_global(name):
            self.bound.add(name)

    def unbind(self, name):
        if self.is_global(name) and name not in self.bound:
            self.looked.add(name)
        super().unbind(name)
        if self.is_global(name):
            self.bound.add(name)

    def do_FunctionDef(self, s, level):
        super().do_FunctionDef(s, level)
        self.bound.add(s.name)

    def extend(self, left, right):
        made = super().extend(left, right)
        self.changed.append(left)
        return made

    def store(self, container, at, value):
        super().store(container, at, value)
        self.changed.append(container)

    def delete(self, container, at):
        super().delete(container, at)
        self.changed.append(container)

    def method(self, on, name, args):
        made = super().method(on, name, args)
        if type(on) is not str and name in CHANGES:
            self.changed.append(on)
        return made

    def call_tell(self, value, level):
        made = super().call_tell(value, level)
        self.changed.append(value)
        return made

    def call_draw(self, level):
        self.drew = True
        if not self.session.words:
            raise cells.Raised("OSError", "feed")
        return self.session.words.pop(0)


def held_by(it):
    """The values in an object."""
    if type(it) in cells.SEQUENCES:
        return it.items
    return list(it.pairs.values()) if type(it) is cells.DictOf else []


def reached(values):
    """The objects that values reach, in the order in which they are met first, level by level."""
    found = []
    for it in values:
        if isinstance(it, OBJECTS) and not any(it is other for other in found):
            found.append(it)
    for it in found:
        for more in held_by(it):
            if isinstance(more, OBJECTS) and not any(more is other for other in found):
                found.append(more)
    return found


def parts_of(names):
    """The parts of a state, each its names in order with the objects that they reach."""
    parts = []
    for name in sorted(names, key=str.encode):
        mine = ([name], reached([names[name]]))
        apart = []
        for part in parts:
            if any(a is b for a in part[1] for b in mine[1]):
                mine = (part[0] + mine[0], part[1] + [it for it in mine[1] if not any(it is other for other in part[1])])
            else:
                apart.append(part)
        parts = [*apart, mine]
    return sorted(((sorted(ns, key=str.encode), objects) for ns, objects in parts), key=lambda it: it[0][0].encode())


def text_bytes(text):
    data = text.encode() if isinstance(text, str) else text
    return struct.pack(">I", len(data)) + data


def value_bytes(value, number, spelled):
    if value is None:
        return b"\0"
    if type(value) is bool:
        return b"\2" if value else b"\1"
    if type(value) is int:
        return b"\3" + value.to_bytes(16, "big", signed=True)
    if type(value) is str:
        return b"\4" + spelled(value)
    if type(value) is cells.Builtin:
        return b"\6" + bytes([ORDER.index(value.name)])
    return b"\5" + struct.pack(">I", number(value))


def part_bytes(names, values, spelled=text_bytes):
    """The bytes of a part, in which each text is spelled so."""
    objects = reached(values)
    number = lambda it: next(n for n, other in enumerate(objects) if other is it)
    one = lambda it: value_bytes(it, number, spelled)
    out = struct.pack(">I", len(names)) + b"".join(bytes([len(it.encode())]) + it.encode() for it in names)
    out += b"".join(map(one, values)) + struct.pack(">I", len(objects))
    for it in objects:
        if type(it) in cells.SEQUENCES:
            out += (b"\x10" if type(it) is cells.ListOf else b"\x13") + struct.pack(">I", len(it.items)) + b"".join(map(one, it.items))
        elif type(it) is cells.DictOf:
            out += b"\x11" + struct.pack(">I", len(it.pairs)) + b"".join(map(one, itertools.chain.from_iterable(it.pairs.items())))
        else:
            out += b"\x12" + spelled(it.source)
    return out


def run(session, code):
    """A cell, watched; a code without a tree does nothing."""
    cell = Watched(session, code)
    try:
        tree = ast.parse(code)
    except SyntaxError:
        return cell
    session.elifs |= cells.elifs_of(tree, code)
    try:
        cell.top(tree.body)
    except cells.Raised:
        pass
    return cell


def new_session():
    session = cells.Session()
    session.words = [7, 8, 9]
    return session


def history(codes, session=None):
    """A session after these cells, with the records of its cells and its versions; of a new session, or of this one."""
    session = session or new_session()
    records, versions, kept_alive = [], [], []
    before = []
    for number, code in enumerate(codes, 1):
        meter = session.meter
        cell = run(session, code)
        kept_alive.append([*cell.changed, *session.globals.values()])
        holds = [(n, it) for n, it in enumerate(versions, 1) if not it["replaced"]]
        reads = [n for n, it in holds if any(x in cell.looked or x in cell.bound and len(it["names"]) > 1 for x in it["names"])]
        known = {x for it in versions for x in it["names"]}
        misses = sorted(cell.looked - known, key=str.encode)
        records.append((meter, cell.steps, cell.drew, reads, misses))
        now = parts_of(session.globals)
        new = []
        for names, objects in now:
            kept = names in [it[0] for it in before] and not cell.bound & {*names} and not any(a is b for a in objects for b in cell.changed)
            if not kept:
                handle = any(type(it) is cells.Handle for it in objects)
                size = 0 if handle else len(part_bytes(names, [session.globals[x] for x in names]))
                new.append({"names": names, "by": number, "replaced": 0, "absent": False, "handle": handle, "size": size})
        for name in cell.bound - {*session.globals}:
            new.append({"names": [name], "by": number, "replaced": 0, "absent": True, "handle": False, "size": 0})
        written = {x for it in new for x in it["names"]}
        for _, it in holds:
            if written & {*it["names"]}:
                it["replaced"] = number
        versions += sorted(new, key=lambda it: it["names"][0].encode())
        before = now
    return session, records, versions


def graph(codes):
    """The lines of the graph of a session."""
    return lines(*history(codes)[1:])


def lines(records, versions):
    """The lines of a graph."""
    return [*map(record_line, range(1, len(records) + 1), records), *map(version_line, range(1, len(versions) + 1), versions)]


def record_line(number, record):
    meter, steps, drew, reads, misses = record
    line = f"cell {number}: meter {meter}, steps {steps}" + (", drew" if drew else "")
    line += f", reads {' '.join(map(str, reads))}" if reads else ""
    return line + (f", misses {', '.join(misses)}" if misses else "")


def version_line(number, it):
    line = f"version {number}: {', '.join(it['names'])}, by {it['by']}" + (f", replaced by {it['replaced']}" if it["replaced"] else "")
    return line + (", absent" if it["absent"] else ", handle" if it["handle"] else f", size {it['size']}")


if __name__ == "__main__":
    print("\n".join(graph(sys.argv[1:])))
