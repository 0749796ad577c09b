#!/usr/bin/env python3
"""The rules of cells, written once more: what is expected of the program's kernel, worked out without it.

  tests/cells.py CODE ..     runs the codes as cells of one session, and says what each shows, its steps, and the meter after it
  tests/cells.py --check     holds the sessions, steps and meters of tests/cases to these rules, and ends with `N agree, M differ`

It goes by the rules of docs/LANGUAGE.md alone, and shares nothing with the program. Names, statements, expressions and calls are
here; what is done with values is in tests/values.py. Codes are read by Python's own parser, which agrees on the subset; a cell that is
refused (its reply is a SyntaxError) is passed over. A draw gives a word from `random`. Python 3, standard library.
"""
import ast
import json
import os
import random
import re
import sys
import threading
import warnings

sys.dont_write_bytecode = True
from values import BUILTINS, METHODS, SEQUENCES, Builtin, DictOf, Function, Handle, ListOf, Operations, Raised, TupleOf
from values import cut, is_number, kind, quoted, size, type_error, weight

CASES = f"{os.path.dirname(os.path.realpath(__file__))}/cases"
SPACES = " \t\n\v\f\r"
# A local that has no value.
EMPTY = object()


def elifs_of(tree, code):
    """An `elif` is no statement, though Python's parser gives it as the `if` of an `else`."""
    lines = code.encode().split(b"\n")
    return {it for it in ast.walk(tree) if isinstance(it, ast.If) and lines[it.lineno - 1][it.col_offset :].startswith(b"elif")}


class Session:
    def __init__(self):
        self.globals, self.meter, self.elifs = {}, 0, set()

    def cell(self, code):
        """What a cell shows, as a case has it, and its steps."""
        run, reply, result = Cell(self, code), {}, None
        tree = ast.parse(code)
        self.elifs |= elifs_of(tree, code)
        try:
            result = run.top(tree.body)
        except Raised as error:
            reply["error"] = f"{error.name}: {cut(error.text, 4_096)}"
        if run.printed:
            reply["out"] = "".join(run.printed)
        if result is not None:
            reply["result"] = cut(result, 65_536) + ("..." if size(result) > 65_536 else "")
        return reply, run.steps


class Flow:
    def __init__(self, how, value=None):
        self.how, self.value = how, value


class Cell(Operations):
    def __init__(self, session, code):
        super().__init__(session)
        self.code, self.printed, self.frame = code, [], None

    # ---- names

    def look(self, name):
        if self.frame is not None and name in self.frame:
            if self.frame[name] is EMPTY:
                raise Raised("UnboundLocalError", f"cannot access local variable '{name}' where it is not associated with a value")
            return self.frame[name]
        if name in self.session.globals:
            return self.session.globals[name]
        if name in BUILTINS:
            return BUILTINS[name]
        raise Raised("NameError", f"name '{name}' is not defined")

    def bind(self, name, value):
        if self.frame is not None and name in self.frame:
            self.frame[name] = value
        else:
            if type(value) is str:
                self.charge(size(value))
            self.session.globals[name] = value

    def unbind(self, name):
        if self.frame is not None and name in self.frame:
            self.look(name)
            self.frame[name] = EMPTY
        elif name in self.session.globals:
            del self.session.globals[name]
        else:
            raise Raised("NameError", f"name '{name}' is not defined")

    # ---- statements

    def top(self, body):
        for statement in body[:-1]:
            self.execute(statement, 1)
        if not body:
            return None
        if not isinstance(body[-1], ast.Expr):
            self.execute(body[-1], 1)
            return None
        self.step()
        value = self.evaluate(body[-1].value, 2)
        return None if value is None else self.text(self.show(value, 3))

    def block(self, body, level):
        for statement in body:
            flow = self.execute(statement, level)
            if flow:
                return flow
        return None

    def execute(self, s, level):
        self.at(level)
        self.step()
        return getattr(self, f"do_{type(s).__name__}")(s, level)

    def do_Pass(self, s, level):
        return None

    do_Global = do_Pass

    def do_Break(self, s, level):
        return Flow("break")

    def do_Continue(self, s, level):
        return Flow("continue")

    def do_Return(self, s, level):
        return Flow("return", self.evaluate(s.value, level + 1) if s.value else None)

    def do_Expr(self, s, level):
        self.evaluate(s.value, level + 1)

    def do_Delete(self, s, level):
        target = s.targets[0]
        if isinstance(target, ast.Name):
            return self.unbind(target.id)
        container = self.evaluate(target.value, level + 1)
        self.delete(container, self.evaluate(target.slice, level + 1))

    def do_Assign(self, s, level):
        self.give(s.targets[0], self.evaluate(s.value, level + 1), level)

    def give(self, target, value, level):
        """Gives a value to a target, or unpacks it where a comma stands among targets."""
        if isinstance(target, ast.Name):
            self.bind(target.id, value)
        elif isinstance(target, ast.Tuple):
            for one, it in zip(target.elts, self.unpacked(value, len(target.elts))):
                self.give(one, it, level)
        else:
            container = self.evaluate(target.value, level + 1)
            self.store(container, self.evaluate(target.slice, level + 1), value)

    def do_AugAssign(self, s, level):
        target = s.target
        self.at(level + 1)
        self.step()
        if isinstance(target, ast.Name):
            old = self.look(target.id)
            return self.bind(target.id, self.augmented(s.op, old, self.evaluate(s.value, level + 1)))
        container = self.evaluate(target.value, level + 2)
        index = self.evaluate(target.slice, level + 2)
        old = self.item(container, index)
        self.store(container, index, self.augmented(s.op, old, self.evaluate(s.value, level + 1)))

    def augmented(self, op, left, right):
        if type(op) is ast.Add and type(left) is ListOf and type(right) is ListOf:
            return self.extend(left, right)
        return self.operate(type(op), left, right)

    def do_If(self, s, level):
        while True:
            if self.truth(self.evaluate(s.test, level + 1)):
                return self.block(s.body, level + 1)
            if not (s.orelse and s.orelse[0] in self.session.elifs):
                return self.block(s.orelse, level + 1)
            s = s.orelse[0]

    def after(self, flow):
        """Whether a loop ends after a turn, and its flow then."""
        if flow is None or flow.how == "continue":
            return False, None
        return True, None if flow.how == "break" else flow

    def do_While(self, s, level):
        while self.truth(self.evaluate(s.test, level + 1)):
            ends, flow = self.after(self.block(s.body, level + 1))
            if ends:
                return flow
        return None

    def do_For(self, s, level):
        for value in self.source(s.iter, level + 1):
            self.step()
            self.give(s.target, value, level)
            ends, flow = self.after(self.block(s.body, level + 1))
            if ends:
                return flow
        return None

    def source(self, e, level):
        if not isinstance(e, ast.Call) or isinstance(e.func, ast.Attribute):
            return self.iterate(self.evaluate(e, level))
        self.at(level)
        self.step()
        callee = self.evaluate(e.func, level + 1)
        args = [self.evaluate(it, level + 1) for it in e.args]
        if callee is not BUILTINS["range"]:
            return self.iterate(self.call(callee, args, level))
        if not 1 <= len(args) <= 3:
            raise type_error("wrong number of arguments for range()")
        if not all(map(is_number, args)):
            raise type_error("wrong argument for range()")
        if len(args) == 3 and args[2] == 0:
            raise Raised("ValueError", "range() arg 3 must not be zero")
        return iter(range(*map(int, args)))

    def iterate(self, value):
        if type(value) is str:
            return iter(value)
        if type(value) in SEQUENCES:
            return self.over_items(value)
        if type(value) is DictOf:
            return self.over_dict(value)
        raise type_error(f"'{kind(value)}' object is not iterable")

    def over_items(self, value):
        at = 0
        while at < len(value.items):
            yield value.items[at]
            at += 1

    def over_dict(self, value):
        at, count = 0, len(value.pairs)
        while True:
            if len(value.pairs) != count:
                raise Raised("RuntimeError", "dictionary changed size during iteration")
            if at >= count:
                return
            yield list(value.pairs)[at]
            at += 1

    def do_FunctionDef(self, s, level):
        lines = self.code.encode().split(b"\n")[s.lineno - 1 : s.end_lineno]
        lines[-1] = lines[-1][: s.end_col_offset]
        source = b"\n".join(lines)[s.col_offset :]
        self.charge(1 + len(source))
        self.session.globals[s.name] = Function(s, source)

    # ---- expressions

    def evaluate(self, e, level):
        self.at(level)
        return getattr(self, f"on_{type(e).__name__}")(e, level)

    def on_Constant(self, e, level):
        self.step()
        return e.value

    def on_Name(self, e, level):
        self.step()
        return self.look(e.id)

    def on_List(self, e, level):
        return self.display(ListOf, e.elts, level)

    def on_Tuple(self, e, level):
        return self.display(TupleOf, e.elts, level)

    def display(self, sort, elements, level):
        self.step()
        items = [self.evaluate(it, level + 1) for it in elements]
        self.charge(1 + sum(map(weight, items)))
        return sort(items)

    def on_Dict(self, e, level):
        self.step()
        pairs = []
        for key, value in zip(e.keys, e.values):
            key = self.evaluate(key, level + 1)
            pairs.append((key, self.evaluate(value, level + 1)))
        for key, _ in pairs:
            self.key(key)
        self.charge(1)
        made = DictOf()
        for key, value in pairs:
            self.put(made, key, value)
        return made

    def on_IfExp(self, e, level):
        self.step()
        return self.evaluate(e.body if self.truth(self.evaluate(e.test, level + 1)) else e.orelse, level + 1)

    def on_BoolOp(self, e, level):
        value = self.evaluate(e.values[0], level + 1)
        for more in e.values[1:]:
            if self.truth(value) == isinstance(e.op, ast.Or):
                return value
            self.step()
            value = self.evaluate(more, level + 1)
        return value

    def on_UnaryOp(self, e, level):
        self.step()
        value = self.evaluate(e.operand, level + 1)
        if isinstance(e.op, ast.Not):
            return not self.truth(value)
        if not is_number(value):
            raise type_error(f"bad operand type for unary {'-' if isinstance(e.op, ast.USub) else '+'}: '{kind(value)}'")
        return self.number(-value if isinstance(e.op, ast.USub) else +value)

    def on_Compare(self, e, level):
        left = self.evaluate(e.left, level + 1)
        for op, right in zip(e.ops, e.comparators):
            self.step()
            if isinstance(op, (ast.Is, ast.IsNot)):
                holds, right = (left is None) == isinstance(op, ast.Is), None
            else:
                right = self.evaluate(right, level + 1)
                holds = self.compare(type(op), left, right, level)
            if not holds:
                return False
            left = right
        return True

    def on_BinOp(self, e, level):
        """The operators of one kind are a chain, which is one expression; parentheses begin another."""
        begin = lambda it: (type(it.op) in (ast.Add, ast.Sub), it.lineno, it.col_offset)
        rest, first = [(type(e.op), e.right)], e.left
        while isinstance(first, ast.BinOp) and begin(first) == begin(e):
            rest.append((type(first.op), first.right))
            first = first.left
        value = self.evaluate(first, level + 1)
        for op, right in reversed(rest):
            self.step()
            value = self.operate(op, value, self.evaluate(right, level + 1))
        return value

    def on_Subscript(self, e, level):
        self.step()
        container = self.evaluate(e.value, level + 1)
        if not isinstance(e.slice, ast.Slice):
            return self.item(container, self.evaluate(e.slice, level + 1))
        return self.sliced(container, [it and [self.evaluate(it, level + 1)] for it in (e.slice.lower, e.slice.upper)])

    def on_Call(self, e, level):
        self.step()
        if isinstance(e.func, ast.Attribute):
            on = self.evaluate(e.func.value, level + 1)
            if e.func.attr not in METHODS.get(type(on), "").split():
                raise Raised("AttributeError", f"'{kind(on)}' object has no attribute '{e.func.attr}'")
            return self.method(on, e.func.attr, [self.evaluate(it, level + 1) for it in e.args])
        callee = self.evaluate(e.func, level + 1)
        return self.call(callee, [self.evaluate(it, level + 1) for it in e.args], level)

    # ---- calls

    def call(self, callee, args, level):
        if type(callee) is Builtin:
            return self.builtin(callee.name, args, level)
        if type(callee) is not Function:
            raise type_error(f"'{kind(callee)}' object is not callable")
        if len(args) != len(callee.parameters):
            raise type_error(f"wrong number of arguments for {callee.name}()")
        outer, self.frame = self.frame, {it: EMPTY for it in callee.locals}
        self.frame.update(zip(callee.parameters, args))
        flow = self.block(callee.body, level + 1)
        self.frame = outer
        return flow.value if flow else None

    def builtin(self, name, args, level):
        if name == "range":
            raise type_error("range() stands only as the source of a for")
        if name == "print":
            line = " ".join([self.written(it, level + 1) for it in args]) + "\n"
            self.charge(size(line))
            self.printed.append(line)
            return None
        if len(args) != (0 if name == "draw" else 1):
            raise type_error(f"wrong number of arguments for {name}()")
        return getattr(self, f"call_{name}")(*args, level)

    def call_draw(self, level):
        return random.getrandbits(64)

    def call_len(self, value, level):
        if type(value) is str:
            return len(value)
        if type(value) in (*SEQUENCES, DictOf):
            return len(value.pairs if type(value) is DictOf else value.items)
        raise type_error("wrong argument for len()")

    def call_str(self, value, level):
        text = self.written(value, level + 1)
        return text if type(value) is str else self.text(text)

    def call_repr(self, value, level):
        return self.text(self.show(value, level + 1))

    def call_int(self, value, level):
        if is_number(value):
            return int(value)
        if type(value) is not str:
            raise type_error("wrong argument for int()")
        if not re.fullmatch(r"[+-]?[0-9]+", value.strip(SPACES)) or value.strip(SPACES)[-1] == "\n":
            raise Raised("ValueError", f"invalid literal for int() with base 10: {quoted(value)}")
        return self.number(int(value.strip(SPACES)))

    def call_handle(self, name, level):
        if type(name) is not str:
            raise type_error("wrong argument for handle()")
        self.charge(1 + size(name))
        return Handle(name)

    def call_tell(self, value, level):
        if type(value) is not Handle:
            raise type_error("wrong argument for tell()")
        value.uses += 1
        return value.uses


# ---- the tables


def text_of(it):
    """The text that a case gives, as tests/run reads it."""
    if isinstance(it, str):
        return it
    if "repeat" in it:
        first, second, third, fourth, fifth = it["pieces"]
        return first + second * it["repeat"] + third + fourth * it["repeat"] + fifth
    lines = [*([it["top"]] if it["top"] else []), *[it["head"]] * it["blocks"], it["inner"]]
    return "\n".join(" " * depth + line for depth, line in enumerate(lines))


def judged(case):
    """What a case expects, and what these rules give."""
    session = Session()
    if "steps" in case:
        for code in case.get("before", []):
            session.cell(text_of(code))
        return case["steps"], session.cell(text_of(case["code"]))[1]
    wanted = [{name: text_of(it) for name, it in reply.items()} for reply in case["replies"]]
    found = []
    for code, reply in zip(map(text_of, case["cells"]), wanted):
        is_refused = reply.get("error", "").startswith("SyntaxError: ")
        found.append(reply if is_refused else session.cell(code)[0])
    return [wanted, case.get("meter", session.meter)], [found, session.meter]


def check():
    agree, differ = 0, 0
    for name in sorted(os.listdir(CASES)):
        with open(f"{CASES}/{name}", encoding="utf-8") as it:
            cases = json.load(it)["cases"]
        for case in cases:
            if "cells" not in case and "steps" not in case:
                continue
            wanted, found = judged(case)
            agree += wanted == found
            differ += wanted != found
            if wanted != found:
                print(f"{name}: DIFFERS: {case['name']}")
                if "steps" in case:
                    print(f"    the table has {wanted}, the rules give {found}")
                else:
                    for number, (a, b) in enumerate(zip(wanted[0], found[0]), 1):
                        if a != b:
                            print(f"    cell {number}: the table has {str(a)[:300]}, the rules give {str(b)[:300]}")
                    if len(wanted[0]) != len(found[0]) or len(case["cells"]) != len(wanted[0]):
                        print(f"    {len(case['cells'])} cells have {len(wanted[0])} replies")
                    if wanted[1] != found[1]:
                        print(f"    meter: the table has {wanted[1]}, the rules give {found[1]}")
    print(f"{agree} agree, {differ} differ")
    return 0 if agree and not differ else 1


def main(words):
    if words in ([], ["-h"], ["--help"]):
        print(__doc__, end="")
        return 0
    if words == ["--check"]:
        return check()
    session = Session()
    for code in words:
        reply, steps = session.cell(code)
        print(json.dumps({**reply, "steps": steps, "meter": session.meter}, ensure_ascii=False))
    return 0


def run():
    global status
    status = main(sys.argv[1:])


if __name__ == "__main__":
    warnings.simplefilter("ignore", SyntaxWarning)
    sys.set_int_max_str_digits(0)
    sys.setrecursionlimit(1_000_000)
    threading.stack_size(512 * 1024 * 1024)
    status = 1
    thread = threading.Thread(target=run)
    thread.start()
    thread.join()
    sys.exit(status)
