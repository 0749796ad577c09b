"""Values of cells, and what is done with them: a second writing of the rules of docs/LANGUAGE.md, which tests/cells.py uses.

What is done with values counts steps and levels, and is charged by the meter of its session. Python 3, standard library.
"""
import ast
import operator

STEPS, UNITS, LEVELS = 1_000_000, 16_777_216, 800
LEAST, MOST = -(2**127), 2**127 - 1


class Raised(Exception):
    def __init__(self, name, text):
        super().__init__(f"{name}: {text}")
        self.name, self.text = name, text


class ListOf:
    def __init__(self, items):
        self.items = items


class TupleOf:
    def __init__(self, items):
        self.items = items


class DictOf:
    def __init__(self):
        # Python's own dict keeps the position and the spelling of a key that is there, and True is 1 to it.
        self.pairs = {}


class Function:
    def __init__(self, node, source):
        self.name, self.body, self.source = node.name, node.body, source
        self.parameters = [it.arg for it in node.args.args]
        self.locals = locals_of(node)


class Handle:
    def __init__(self, name):
        self.name, self.uses = name, 0


class Builtin:
    def __init__(self, name):
        self.name = name


BUILTINS = {it: Builtin(it) for it in "print len str repr int range draw handle tell".split()}
KINDS = {type(None): "NoneType", bool: "bool", int: "int", str: "str", ListOf: "list", TupleOf: "tuple", DictOf: "dict", Function: "function"}
KINDS |= {Handle: "handle", Builtin: "builtin_function_or_method"}
# What an operator, a slice or an index does to a list it does to a tuple.
SEQUENCES = (ListOf, TupleOf)
BRACKETS = {ListOf: "[]", TupleOf: "()", DictOf: "{}"}
SIGNS = {ast.Add: "+", ast.Sub: "-", ast.Mult: "*", ast.FloorDiv: "//", ast.Mod: "%"}
CALCULATED = {ast.Add: operator.add, ast.Sub: operator.sub, ast.Mult: operator.mul, ast.FloorDiv: operator.floordiv, ast.Mod: operator.mod}
ORDERS = {ast.Lt: "<", ast.LtE: "<=", ast.Gt: ">", ast.GtE: ">="}
METHODS = {ListOf: "append insert pop extend clear", DictOf: "get pop clear", str: "join split startswith endswith"}


def kind(value):
    return KINDS[type(value)]


def is_number(value):
    return type(value) in (bool, int)


def size(text):
    return len(text.encode("utf-8", "surrogatepass"))


def cut(text, most):
    """Its longest beginning of whole characters within so many bytes, as replies say what is long."""
    return text.encode()[:most].decode("utf-8", "ignore")


def weight(value):
    return 1 + (size(value) if type(value) is str else 0)


def locals_of(node):
    names, globals_ = [it.arg for it in node.args.args], set()
    for it in ast.walk(node):
        if isinstance(it, ast.Global):
            globals_ |= set(it.names)
        elif isinstance(it, ast.Name) and not isinstance(it.ctx, ast.Load):
            names.append(it.id)
    return {it for it in names if it not in globals_}


def quoted(text):
    quote = '"' if "'" in text and '"' not in text else "'"
    short = {"\\": "\\\\", quote: "\\" + quote, "\n": "\\n", "\r": "\\r", "\t": "\\t"}
    return quote + "".join(short.get(c) or (f"\\x{ord(c):02x}" if ord(c) < 32 or ord(c) == 127 else c) for c in text) + quote


def plain(value):
    """What a value shows that isn't looked into."""
    if type(value) is str:
        return quoted(value)
    if type(value) is Function:
        return f"<function {value.name}>"
    if type(value) is Handle:
        return f"<handle {quoted(value.name)}>"
    if type(value) is Builtin:
        return f"<class '{value.name}'>" if value.name in ("str", "int", "range") else f"<built-in function {value.name}>"
    return repr(value)


def type_error(text):
    return Raised("TypeError", text)


class Operations:
    """What is done with values, in a cell of a session."""

    def __init__(self, session):
        self.session, self.steps = session, 0

    # ---- steps, levels, meter

    def step(self, count=1):
        if self.steps + count > STEPS:
            self.steps = STEPS
            raise Raised("StepLimitError", "1000000 steps")
        self.steps += count

    def at(self, level):
        if level > LEVELS:
            raise Raised("RecursionError", "maximum recursion depth exceeded")

    def charge(self, units):
        if self.session.meter + units > UNITS:
            raise Raised("MemoryError", "meter spent")
        self.session.meter += units

    def text(self, text):
        self.charge(size(text))
        return text

    def text_of_size(self, units, make):
        self.charge(units)
        return make()

    def sequence_of(self, sort, items):
        """A new list or tuple of copied items."""
        self.charge(1 + sum(map(weight, items)))
        self.step(len(items))
        return sort(items)

    # ---- operators

    def truth(self, value):
        if type(value) in SEQUENCES:
            return bool(value.items)
        if type(value) is DictOf:
            return bool(value.pairs)
        return True if type(value) in (Function, Handle, Builtin) else bool(value)

    def number(self, n):
        if not LEAST <= n <= MOST:
            raise Raised("OverflowError", "number past 128 bits")
        return int(n)

    def operate(self, op, left, right):
        if is_number(left) and is_number(right):
            if op in (ast.FloorDiv, ast.Mod) and right == 0:
                raise Raised("ZeroDivisionError", "division by zero")
            return self.number(CALCULATED[op](left, right))
        if op is ast.Add and type(left) is type(right) is str:
            return self.text(left + right)
        if op is ast.Add and type(left) is type(right) in SEQUENCES:
            return self.sequence_of(type(left), left.items + right.items)
        if op is ast.Mult and (is_number(left) or is_number(right)):
            held, times = (right, left) if is_number(left) else (left, right)
            times = max(0, int(times))
            if type(held) is str:
                return self.text_of_size(size(held) * times, lambda: held * times if held else "")
            if type(held) in SEQUENCES:
                count = len(held.items) * times
                self.charge(1 + sum(map(weight, held.items)) * times)
                self.step(count)
                return type(held)(held.items * times if count else [])
        raise type_error(f"unsupported operand type(s) for {SIGNS[op]}: '{kind(left)}' and '{kind(right)}'")

    def compare(self, op, left, right, level):
        if op is ast.Eq:
            return self.equal(left, right, level)
        if op is ast.NotEq:
            return not self.equal(left, right, level)
        if op is ast.In:
            return self.found(left, right, level)
        if op is ast.NotIn:
            return not self.found(left, right, level)
        return self.ordered(op, left, right, level)

    def pair(self, left, right, level):
        """Whether two elements are equal, at their level."""
        self.at(level)
        self.step()
        is_object = type(left) not in (type(None), bool, int, str, Builtin)
        return is_object and left is right or self.equal(left, right, level)

    def equal(self, left, right, level):
        if is_number(left) and is_number(right) or type(left) is type(right) is str:
            return left == right
        if type(left) is not type(right):
            return False
        if type(left) in SEQUENCES:
            return len(left.items) == len(right.items) and all(self.pair(v, w, level + 1) for v, w in zip(left.items, right.items))
        if type(left) is DictOf:
            if len(left.pairs) != len(right.pairs):
                return False
            return all(key in right.pairs and self.pair(value, right.pairs[key], level + 1) for key, value in left.pairs.items())
        return left is right

    def ordered(self, op, left, right, level):
        if type(left) is type(right) in SEQUENCES:
            at = 0
            while at < len(left.items) and at < len(right.items):
                v, w = left.items[at], right.items[at]
                if not self.pair(v, w, level + 1):
                    return self.ordered(op, v, w, level + 1)
                at += 1
            left, right = len(left.items), len(right.items)
        if not (is_number(left) and is_number(right) or type(left) is type(right) is str):
            raise type_error(f"'{ORDERS[op]}' not supported between instances of '{kind(left)}' and '{kind(right)}'")
        return {ast.Lt: left < right, ast.LtE: left <= right, ast.Gt: left > right, ast.GtE: left >= right}[op]

    def found(self, value, container, level):
        if type(container) is str:
            if type(value) is not str:
                raise type_error(f"'in <string>' requires string as left operand, not {kind(value)}")
            return value in container
        if type(container) in SEQUENCES:
            return any(self.pair(value, it, level + 1) for it in container.items)
        if type(container) is DictOf:
            return self.key(value) in container.pairs
        raise type_error(f"argument of type '{kind(container)}' is not iterable")

    def extend(self, left, right):
        items = list(right.items)
        self.charge(sum(map(weight, items)))
        self.step(len(items))
        left.items += items
        return left

    # ---- items

    def key(self, value):
        if type(value) not in (type(None), bool, int, str):
            raise type_error(f"unhashable type: '{kind(value)}'")
        return value

    def position(self, count, at, error):
        if not is_number(at):
            raise type_error("indices must be integers")
        at = int(at) + (count if at < 0 else 0)
        if not 0 <= at < count:
            raise Raised("IndexError", error)
        return at

    def item(self, container, at):
        if type(container) is str:
            return self.text(container[self.position(len(container), at, "string index out of range")])
        if type(container) in SEQUENCES:
            return container.items[self.position(len(container.items), at, f"{kind(container)} index out of range")]
        if type(container) is DictOf:
            return self.under(container, at)
        raise type_error(f"'{kind(container)}' object is not subscriptable")

    def sliced(self, container, bounds):
        if type(container) not in (str, *SEQUENCES):
            raise type_error(f"'{kind(container)}' object is not subscriptable")
        for it in bounds:
            if it and not is_number(it[0]):
                raise type_error("indices must be integers")
        part = slice(*[it and int(it[0]) for it in bounds])
        return self.text(container[part]) if type(container) is str else self.sequence_of(type(container), container.items[part])

    def unpacked(self, value, count):
        """The values that a value is unpacked into, for so many targets."""
        if type(value) in SEQUENCES:
            items = value.items
        elif type(value) in (DictOf, str):
            items = value.pairs if type(value) is DictOf else value
        else:
            raise type_error(f"cannot unpack non-iterable {kind(value)} object")
        if len(items) > count:
            raise Raised("ValueError", f"too many values to unpack (expected {count})")
        if len(items) < count:
            raise Raised("ValueError", f"not enough values to unpack (expected {count}, got {len(items)})")
        self.step(count)
        return list(items)

    def under(self, container, key):
        if self.key(key) not in container.pairs:
            raise Raised("KeyError", plain(key))
        return container.pairs[key]

    def put(self, container, key, value):
        self.charge((0 if key in container.pairs else weight(key)) + weight(value))
        container.pairs[key] = value

    def store(self, container, at, value):
        if type(container) is ListOf:
            at = self.position(len(container.items), at, "list assignment index out of range")
            self.charge(weight(value))
            container.items[at] = value
        elif type(container) is DictOf:
            self.put(container, self.key(at), value)
        else:
            raise type_error(f"'{kind(container)}' object does not support item assignment")

    def delete(self, container, at):
        if type(container) is ListOf:
            del container.items[self.position(len(container.items), at, "list assignment index out of range")]
        elif type(container) is DictOf:
            self.under(container, at)
            del container.pairs[at]
        else:
            raise type_error(f"'{kind(container)}' object does not support item deletion")

    # ---- methods

    def method(self, on, name, args):
        most = {"get": (1, 2), "clear": (0, 0), "insert": (2, 2), "pop": (0, 1) if type(on) is ListOf else (1, 1)}.get(name, (1, 1))
        if not most[0] <= len(args) <= most[1]:
            raise type_error(f"wrong number of arguments for {name}()")
        wrong = type_error(f"wrong argument for {name}()")
        if name == "append":
            self.charge(weight(args[0]))
            on.items.append(args[0])
        elif name == "insert":
            if not is_number(args[0]):
                raise wrong
            self.charge(weight(args[1]))
            on.items.insert(max(min(int(args[0]), len(on.items)), -len(on.items)), args[1])
        elif name == "extend":
            if type(args[0]) is not ListOf:
                raise wrong
            self.extend(on, args[0])
        elif name == "clear":
            (on.items if type(on) is ListOf else on.pairs).clear()
        elif name == "get":
            return on.pairs.get(self.key(args[0]), args[1] if len(args) == 2 else None)
        elif name == "pop" and type(on) is DictOf:
            self.under(on, args[0])
            return on.pairs.pop(args[0])
        elif name == "pop":
            at = args[0] if args else -1
            if not is_number(at):
                raise wrong
            if not on.items:
                raise Raised("IndexError", "pop from empty list")
            return on.items.pop(self.position(len(on.items), at, "pop index out of range"))
        elif name == "join":
            if type(args[0]) is not ListOf or not all(type(it) is str for it in args[0].items):
                raise wrong
            return self.text(on.join(args[0].items))
        else:
            if type(args[0]) is not str:
                raise wrong
            if name == "split":
                if not args[0]:
                    raise Raised("ValueError", "empty separator")
                return self.sequence_of(ListOf, on.split(args[0]))
            return on.startswith(args[0]) if name == "startswith" else on.endswith(args[0])
        return None

    # ---- showing

    def written(self, value, level):
        if type(value) is not str:
            return self.show(value, level)
        self.at(level)
        self.step()
        return value

    def show(self, value, level, path=()):
        self.at(level)
        self.step()
        if type(value) not in BRACKETS:
            return plain(value)
        first, last = BRACKETS[type(value)]
        if any(it is value for it in path):
            return f"{first}...{last}"
        path += (value,)
        if type(value) is DictOf:
            shown = [self.show(key, level + 1, path) + ": " + self.show(it, level + 1, path) for key, it in value.pairs.items()]
        else:
            shown = [self.show(it, level + 1, path) for it in value.items]
        comma = "," if type(value) is TupleOf and len(shown) == 1 else ""
        return f"{first}{', '.join(shown)}{comma}{last}"
