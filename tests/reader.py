#!/usr/bin/env python3
"""The rules of reading, written once more: what is expected of the program's reader, worked out without it.

  tests/reader.py CODE       says how the code is read: its fault, or `accepted`
  tests/reader.py --check    holds the tables of tests/cases to these rules, and ends with `N agree, M differ`
  tests/reader.py --write    writes tests/cases/situations.json: each situation of reading with each token after it

It goes by the rules of docs/LANGUAGE.md alone, and shares nothing with the program: the grammar is text, read by a recognizer for any
grammar (Earley's), which keeps all ways of reading at once. So the failing token is the first after which no way is left. A word in
angle brackets in the grammar is a mark: what a token that fails exactly there is named. A text that fails is too deep where the
cells are that its tokens begin and that end soonest: the latest of their places, if each has one. It is slow: for codes of some hundred tokens. Python 3, standard library.
"""
import collections
import json
import os
import re
import sys
import threading

CASES = f"{os.path.dirname(os.path.realpath(__file__))}/cases"
DEEPEST = 64
LONGEST_CODE = 262_144
KEYWORDS = """False None True and as assert async await break class continue def del elif else except finally for from global if import
in is lambda nonlocal not or pass raise return try while with yield""".split()
UNUSED = "as assert async await class except finally from import lambda nonlocal raise try with yield".split()
OPERATORS = "//= += -= *= %= == != <= >= // + - * % < > = ( ) [ ] { } , : .".split()
Token = collections.namedtuple("Token", "kind text at")


class Fault(Exception):
    """How a code is refused, and whether that is at its end."""

    def __init__(self, text, is_end=False):
        super().__init__(text)
        self.is_end = is_end


# ---- tokens

NAME = re.compile(r"[A-Za-z_][A-Za-z_0-9]*")
NUMBER = re.compile(r"0+(?:_0+)*|[1-9][0-9]*(?:_[0-9]+)*")
TEXT = re.compile(r"""(['"])((?:(?!\1)[^\\\n]|\\[^\n])*)\1""")
ESCAPE = re.compile(r"\\(?:[\\'\"nrt]|x[0-9a-fA-F]{2})")


class Lines:
    """Takes a code apart, as bytes read one to a character."""

    def __init__(self, code):
        self.code = code.encode("utf-8").decode("latin-1")
        self.at, self.depths, self.open, self.tokens = 0, [0], 0, []

    def add(self, kind, text, at=None):
        self.tokens.append(Token(kind, text, self.at if at is None else at))

    def line_end(self):
        """The place of the line's LF or of the end of the code, and the place before a CR that belongs to it."""
        end = self.code.find("\n", self.at)
        end = len(self.code) if end < 0 else end
        return end, end - 1 if end < len(self.code) and end > self.at and self.code[end - 1] == "\r" else end

    def read(self):
        while self.at < len(self.code):
            self.line()
        if self.tokens and self.open == 0 and self.tokens[-1].kind != "NEWLINE":
            self.add("NEWLINE", "", len(self.code))
        for _ in self.depths[1:]:
            self.add("DEDENT", "", len(self.code))
        self.add("END", "", len(self.code))
        return self.tokens

    def line(self):
        lf, end = self.line_end()
        if self.open == 0:
            spaces = re.match(r" *", self.code[self.at : end])[0]
            blank = re.match(r"[ \t]*", self.code[self.at : end])[0]
            first = self.at + len(blank)
            is_empty = first == end or self.code[first] == "#"
            if not is_empty:
                if len(blank) > len(spaces):
                    raise Fault(f"tab in indent at byte {self.at + len(spaces)}")
                self.indent(len(spaces), first)
            self.at = first
        while self.at < end:
            self.one(end)
        if self.tokens and self.open == 0 and self.tokens[-1].kind not in ("NEWLINE", "INDENT", "DEDENT"):
            self.add("NEWLINE", "", lf)
        self.at = lf + 1

    def indent(self, depth, first):
        if depth > self.depths[-1]:
            self.depths.append(depth)
            self.add("INDENT", "", first)
        while depth < self.depths[-1]:
            self.depths.pop()
            self.add("DEDENT", "", first)
        if depth != self.depths[-1]:
            raise Fault(f"bad indent at byte {first}")

    def one(self, end):
        """A token, white space, or a comment, of the line that ends there."""
        rest = self.code[self.at : end]
        if rest[0] in " \t":
            self.at += 1
        elif rest[0] == "#":
            if "\r" in rest:
                raise Fault(f"bad character at byte {self.at + rest.index(chr(13))}")
            self.at = end
        elif found := NAME.match(rest):
            self.name(found[0], rest)
        elif rest[0] in "0123456789":
            self.number(rest)
        elif rest[0] in "'\"":
            self.text(rest)
        else:
            self.sign(rest)

    def name(self, name, rest):
        if len(name) > 255:
            raise Fault(f"name too long at byte {self.at}")
        self.add(name if name in KEYWORDS else "NAME", name)
        self.at += len(name)
        self.stop_on(rest[len(name) :], "['\"]")

    def stop_on(self, rest, refused):
        if re.match(refused, rest):
            raise Fault(f"bad character at byte {self.at}")

    def number(self, rest):
        found = NUMBER.match(rest)[0]
        follows = self.at + len(found)
        if int(found.replace("_", "")) > 2**127 - 1:
            raise Fault(f"number too wide at byte {self.at}")
        if re.match("[A-Za-z0-9_.]", rest[len(found) :]):
            raise Fault(f"bad character at byte {follows}")
        self.add("NUMBER", found)
        self.at = follows

    def text(self, rest):
        found = TEXT.match(rest)
        if not found:
            raise Fault(f"open text at byte {self.at}")
        for slash in re.finditer(r"\\.", found[2], re.S):
            if not ESCAPE.match(found[2], slash.start()):
                raise Fault(f"bad character at byte {self.at + 1 + slash.start()}")
        if "\r" in found[2]:
            raise Fault(f"bad character at byte {self.at + 1 + found[2].index(chr(13))}")
        self.add("TEXT", found[0])
        self.at += len(found[0])
        self.stop_on(rest[len(found[0]) :], "['\"]")

    def sign(self, rest):
        sign = next((it for it in OPERATORS if rest.startswith(it)), None)
        if sign is None:
            raise Fault(f"bad character at byte {self.at}")
        self.add(sign, sign)
        self.open += 1 if sign in "([{" else 0
        self.open -= 1 if sign in ")]}" and self.open else 0
        self.at += len(sign)


def tokens_of(code):
    if len(code.encode()) > LONGEST_CODE:
        raise Fault("cell too long")
    return Lines(code).read()


# ---- the grammar

# PARAM and GLOBAL are names that have to be new there. @ is what is around a statement: each of CONTEXTS.
GRAMMAR = """
cell       = { statement/T } "END"
alone      = def "END"
statement@ = simple@ "NEWLINE" | if@ | while@ | for@ | <def:nested function>
simple@    = "pass" | "del" target | targets "=" exprs [ <=:chained assignment> ] | target augment exprs | exprs
targets    = target { "," target } [ "," ]
target     = "NAME" | primary "[" expr "]"
augment    = "+=" | "-=" | "*=" | "//=" | "%="
if@        = "if" expr ":" block/inner { "elif" expr ":" block/inner } [ "else" ":" block/inner ]
while@     = "while" expr ":" block/loop
for@       = "for" names "in" exprs ":" block/loop
names      = "NAME" { "," "NAME" } [ "," ]
def        = "def" "NAME" "(" [ param { "," param } [ "," ] ] ")" ":" block/F
param      = "PARAM" [ <=:default> ]
block@     = simple@ "NEWLINE" | "NEWLINE" "INDENT" statement@ { statement@ } "DEDENT" | <def:nested function>
exprs      = expr { "," expr } [ "," ]
expr       = or [ "if" or "else" expr ]
or         = and { "or" and }
and        = not { "and" not }
not        = "not" not | compare
compare    = sum { relation sum | "is" [ "not" ] ( "None" | <*:is> ) }
relation   = "==" | "!=" | "<" | "<=" | ">" | ">=" | "in" | "not" "in"
sum        = product { ( "+" | "-" ) product }
product    = sign { ( "*" | "//" | "%" ) sign }
sign       = ( "-" | "+" ) sign | primary
primary    = atom { postfix }
postfix    = "(" args ")" | "[" expr "]" | "[" [ expr ] ":" [ expr ] "]" | "." "NAME" ( "(" args ")" | <*:attribute> )
args       = [ expr { "," expr } [ "," | <for:comprehension> | <=:keyword argument> ] ]
atom       = "NAME" | "NUMBER" | "TEXT" | "None" | "True" | "False"
           | "(" [ exprs ] ")" | "[" args "]" | "{" [ first { "," pair } [ "," ] ] "}"
first      = expr ( ":" expr | <,:set> | <}:set> )
pair       = expr ":" expr
"""
# The top of a cell, a block of the cell, one in a loop, a function's block, one in a loop of the function.
CONTEXTS = {"T": ("B", "L"), "B": ("B", "L"), "L": ("L", "L"), "F": ("F", "G"), "G": ("G", "G")}
IN_LOOP = ' | "break" | "continue"'
IN_FUNCTION = ' | "return" [ exprs ] | "global" "GLOBAL" { "," "GLOBAL" }'
# Where two names fit, the first counts.
ORDER = ["comprehension", "set", "is", "attribute", "chained assignment", "keyword argument", "default", "nested function"]


def rules_in_text():
    """Each nonterminal with what it is, as text, for each of CONTEXTS in which a statement may come."""
    lines = re.sub(r"\n\s+\|", " |", GRAMMAR).strip().split("\n")
    for name, _, told in (it.partition("=") for it in lines):
        name, told = name.strip(), told.strip()
        if not name.endswith("@"):
            yield name, re.sub(r"/(\w)", r"@\1", told)
            continue
        for context, (inner, loop) in CONTEXTS.items():
            it = told.replace("/inner", f"@{inner}").replace("/loop", f"@{loop}")
            it = re.sub(r"@(?= |$)", f"@{context}", it)
            if name == "simple@":
                it += IN_LOOP * (context in "LG") + IN_FUNCTION * (context in "FG")
            if name == "statement@" and context == "T":
                it = it.replace("<def:nested function>", "def")
            yield f"{name}{context}", it


class Grammar:
    """Rules without brackets: each nonterminal with its alternatives. A name that begins with _ stands for a bracket."""

    def __init__(self):
        self.rules = collections.defaultdict(list)
        for name, told in rules_in_text():
            self.words = re.findall(r"<[^>]*(?:>:[^>]*)?>|\"[^\"]*\"|[\w@]+|[][{}()|]", told)
            self.rules[name] += self.alternatives()
        self.empty, size = set(), -1
        while len(self.empty) > size:
            size = len(self.empty)
            self.empty |= {name for name, those in self.rules.items() if any(all(it in self.empty for it in one) for one in those)}

    def alternatives(self):
        found = [[]]
        while self.words and self.words[0] not in "])}":
            word = self.words.pop(0)
            if word == "|":
                found.append([])
            elif word in ("[", "{", "("):
                found[-1].append(self.bracket(word))
            else:
                found[-1].append(word)
        return [tuple(it) for it in found]

    def bracket(self, word):
        inner = self.alternatives()
        self.words.pop(0)
        name = f"_{len(self.rules)}"
        self.rules[name] = {"(": inner, "[": [(), *inner], "{": [(), *[(name, *it) for it in inner]]}[word]
        return name


THE = Grammar()


# ---- reading, all ways at once


def is_new(tokens, number):
    """Whether the name isn't one that comes after the `(` of the function around it."""
    begin = max(it for it in range(number) if tokens[it].kind == "def")
    return tokens[number].text not in {it.text for it in tokens[begin + 3 : number] if it.kind == "NAME"}


class Chart:
    """What the tokens so far may be the beginning of: for each position between tokens, the rules begun, how far, and where they began."""

    def __init__(self, top, sets=None):
        self.top, self.sets = top, sets or []
        if not sets:
            self.close({(top, it, 0, 0) for it in THE.rules[top]})

    def close(self, begun):
        """Adds a set: what is begun, what may come there, and what has ended."""
        here, items, waiting = len(self.sets), {}, collections.defaultdict(list)
        self.sets.append((items, waiting))
        left = list(begun)
        while left:
            item = left.pop()
            if item in items:
                continue
            items[item] = None
            name, rule, dot, origin = item
            if dot == len(rule):
                left += [(n, r, d + 1, o) for n, r, d, o in self.sets[origin][1][name]]
                continue
            word = rule[dot]
            waiting[word].append(item)
            if word in THE.rules:
                left += [(word, it, 0, here) for it in THE.rules[word]]
                if word in THE.empty:
                    left.append((name, rule, dot + 1, origin))
        return self

    def goes_on(self, tokens, number):
        """The chart with one token more, or None if no way of reading has it."""
        token, waiting = tokens[number], self.sets[number][1]
        found = list(waiting[f'"{token.kind}"'])
        if token.kind == "NAME":
            for word in ('"PARAM"', '"GLOBAL"'):
                if waiting[word] and is_new(tokens, number):
                    found += waiting[word]
        if not found:
            return None
        return Chart(self.top, self.sets[: number + 1]).close({(n, r, d + 1, o) for n, r, d, o in found})

    def name_of(self, token):
        """What a token that can't come after all of these is named, if it is."""
        if token.kind in UNUSED:
            return token.kind
        marks = [it[1:-1].rsplit(":", 1) for it, those in self.sets[-1][1].items() if those and it.startswith("<")]
        return min((it for sign, it in marks if sign in (token.kind, "*")), key=ORDER.index, default=None)

    def has(self, word):
        return bool(self.sets[-1][1][word])


def begun(tokens, top="cell"):
    """The chart of the tokens before the failing one, and that one's number; None if none fails."""
    chart = Chart(top)
    for number in range(len(tokens)):
        more = chart.goes_on(tokens, number)
        if more is None:
            return chart, number
        chart = more
    return chart, None


# ---- nodes

CLOSERS = ["END", "DEDENT", "NEWLINE", ")", "]", "}", "NAME", ":", "PARAM", "GLOBAL", "None", "else", "in", "INDENT", "[", "(", "=", "def"]


def ended(chart, tokens, to_target):
    """The tokens and the chart of a cell that begins with these and ends soon: what is read is assigned to if it may, also as the
    value of an item, or it isn't."""
    tokens, items = list(tokens), to_target
    order = ["=", *CLOSERS] if to_target else CLOSERS
    while not tokens or tokens[-1].kind != "END":
        kind = next(it for it in order if chart.has(f'"{it}"'))
        if items and kind == "NEWLINE" and chart.has('"["'):
            kind, items = "[", False
        name = f"new{len(tokens)}"
        tokens.append(Token("NAME" if kind in ("PARAM", "GLOBAL") else kind, name, -1))
        chart = chart.goes_on(tokens, len(tokens) - 1)
        order = CLOSERS if kind == "=" else order
    return tokens, chart


class Trees:
    """The one tree of a chart that is whole."""

    def __init__(self, chart):
        self.sets, self.made = chart.sets, {}
        self.ends = [collections.defaultdict(list) for _ in self.sets]
        for at, (items, _) in enumerate(self.sets):
            for name, rule, dot, origin in items:
                if dot == len(rule):
                    self.ends[at][name].append((origin, rule))

    def tree(self, name, begin, end):
        """A nonterminal's children, brackets opened: numbers of tokens, and pairs of a name and children."""
        key = name, begin, end
        if key not in self.made:
            found = next((it for origin, rule in self.ends[end][name] if origin == begin for it in [self.children(name, rule, begin, end)] if it is not None), None)
            self.made[key] = found
        return self.made[key]

    def children(self, name, rule, begin, end):
        found, at = [], end
        for dot in range(len(rule) - 1, -1, -1):
            word = rule[dot]
            if word not in THE.rules:
                at -= 1
                found = [at, *found]
                continue
            for origin, _ in self.ends[at][word]:
                if (name, rule, dot, begin) in self.sets[origin][0] and (origin < at or word in THE.empty):
                    inner = self.tree(word, origin, at)
                    if inner is not None:
                        found = [*inner, *found] if word.startswith("_") else [(word.partition("@")[0], inner), *found]
                        at = origin
                        break
            else:
                return None
        return found if at == begin else None


STATEMENTS = ("simple", "if", "while", "for", "def")
CHAINS = ("exprs", "expr", "or", "and", "not", "compare", "sum", "product", "sign")


def nodes_of(chart, tokens, top):
    """For each token how many nodes hold it."""
    counts = {}
    # (the postfixes of a primary each hold what comes before them)
    def walk(name, children, depth):
        if name == "primary":
            many = len(children) - 1
            walk(*children[0], depth + many)
            for number, it in enumerate(children[1:]):
                walk(*it, depth + many - number)
            return
        own = depth + (name in STATEMENTS or name == "atom" or name in CHAINS and len(children) > 1)
        for it in children:
            if isinstance(it, int):
                counts[it] = own
            else:
                walk(*it, own)

    walk(top, Trees(chart).tree(top, 0, len(tokens)), 0)
    return counts


def first_deep(tokens, chart, top):
    """The number of the first token that more than 64 nodes hold; none is as the end."""
    counts = nodes_of(chart, tokens, top)
    return next((it for it in range(len(tokens)) if counts.get(it, 0) > DEEPEST), len(tokens))


def stop_on_depth(tokens, chart, number, top):
    """Refuses a cell that is too deep, or the tokens before the failing one if each cell that they begin is, at one of them."""
    ways = [(tokens, chart)] if number is None else [ended(chart, tokens[:number], it) for it in (False, True)]
    at = max(first_deep(those, chart, top) for those, chart in ways)
    if at < (len(tokens) if number is None else number):
        raise Fault(f"too deep at byte {tokens[at].at}")


# ---- the answers


def refuse(chart, token):
    named = chart.name_of(token)
    if named:
        raise Fault(f"{named} is outside this subset at byte {token.at}")
    raise Fault(f"no parse at byte {token.at}", token.kind == "END")


def judge(code, top="cell"):
    """Raises the Fault of a code, or of a text that is to be one function, or returns its tokens."""
    tokens = tokens_of(code)
    chart, number = begun(tokens, top)
    stray = stray_byte(code, tokens) if top == "alone" and number is None else None
    if stray is not None:
        with_depth(tokens, chart, top, stray)
    stop_on_depth(tokens, chart, number, top)
    if number is not None:
        refuse(chart, tokens[number])
    return tokens


def stray_byte(code, tokens):
    """The first byte of a text that comes before or after its function."""
    whole = [it for it in tokens if it.kind not in ("NEWLINE", "INDENT", "DEDENT", "END")]
    end = whole[-1].at + len(whole[-1].text)
    return 0 if whole[0].at else end if end < len(code.encode()) else None


def with_depth(tokens, chart, top, stray):
    """The first of the two faults: a node that is too deep, or the stray byte."""
    try:
        stop_on_depth(tokens, chart, None, top)
    except Fault as fault:
        if int(str(fault).split()[-1]) < stray:
            raise
    raise Fault(f"no parse at byte {stray}")


def verdict(code, top="cell"):
    """`accepted`, or the text of the fault; and whether it fails at its end."""
    try:
        judge(code, top)
        return "accepted", False
    except Fault as fault:
        return str(fault), fault.is_end


def completeness(code):
    said, is_end = verdict(code)
    if said == "accepted":
        return "complete"
    if not (is_end and said.startswith("no parse")):
        return "invalid"
    last = [it for it in tokens_of(code) if it.kind not in ("NEWLINE", "INDENT", "DEDENT", "END")][-1]
    line = code.encode()[: last.at].decode().rpartition("\n")[2] + code.encode()[last.at :].decode()
    return f"incomplete {len(line) - len(line.lstrip(' ')) + 4 * (last.kind == ':')}"


# ---- a table of situations and tokens

# Each state of a cell that is being read, and each state of an expression in it, by a text that leads there.
SITUATIONS = {
    "a line begins": ["", "a\n", "if a: b\n", "def f(): a\n", "if a:\n  b\n", "while a:\n  b\n  ", "def f():\n  a\n  ", "def f():\n  while a:\n    b\n    ", "if a:\n  if b: c\n  "],
    "in a simple statement": ["a", "a[0]", "a()", "a + b", "1", "a if b else c", "a = b", "a[0] = b", "a += b", "del a", "del a[0]", "del a()", "del (a)", "def f(): return a", "def f(): return "],
    "after a comma of a simple statement": ["a, ", "a, b, ", "a[0], b(), ", "a + b, ", "()", "(), ", "(a, b)", "a, b", "a, b[0]", "a, (b)", "a, 1", "a, b = ", "a, = b", "a, b = c", "a, b = c, ", "a = b, ", "a = b, c", "a += b, ", "def f(): return a, ", "def f(): return a, b"],
    "after a word": ["pass", "while a: break", "while a: continue", "if a: pass"],
    "in a global": ["def f(): global ", "def f(): global a, "],
    "after a name of a global": ["def f(): global a", "def f(a): global b"],
    "in a test": ["if ", "if a", "while a", "for x in a", "if a: b\nelif ", "if a: b\nelif c", "for x in ", "for x in a, ", "for x in a, b", "if (a, b)"],
    "after for": ["for ", "for x, ", "for x, y, "],
    "after the name of a for": ["for x ", "for x, y "],
    "after else": ["if a: b\nelse "],
    "after def": ["def "],
    "after the name of a def": ["def f "],
    "in parameters": ["def f(", "def f(a, "],
    "after a parameter": ["def f(a"],
    "after the parameters": ["def f()"],
    "after a colon": ["if a:", "while a:", "for x in a:", "def f():", "if a: b\nelse:", "while a:\n  if b:", "def f():\n  if a:"],
    "after a line's end": ["if a:\n", "while a:\n  ", "def f():\n  ", "def f():\n  while a:\n    "],
    "an operand is to come": ["a = ", "a + ", "a * ", "not ", "-", "a or ", "a and ", "a < ", "a if ", "a if b else ", "(", "[", "[a, ", "{", "{a: ", "{a: b, ", "f(", "f(a, ", "a.m(", "a[", "a[:", "a[b:", "del ", "a in ", "(a, ", "(a, b, ", "x = (a, ", "[(a, ", "f((a, "],
    "an operand was read": ["(a, b", "((a), b", "(a, not b", "[(a, b", "f((a, b", "a[(b, c", "{(a, b", "(a", "(a.m()", "[a", "[a, b", "{a", "{a: b", "{a: b, c", "f(a", "f(a, b", "a.m(b", "a[b", "a[:b", "a[b:c", "(not a", "(-a", "(a if b", "(a if b else c", "[(a", "[a][b", "f(a if b", "[a + b", "{-a"],
    "after is None": ["a is None", "(a is None", "[a is not None", "{a is None", "x = a is None", "if a is None", "f(a is None"],
    "after is": ["a is ", "(a is ", "if a is ", "x = a == b is "],
    "after is not": ["a is not ", "(a is not ", "[a is not "],
    "after not after an operand": ["a not ", "(a not ", "if a not "],
    "after a dot": ["a.", "(a.", "1 .", "a().", "del a.", "x = a."],
    "after a method's name": ["a.b ", "(a.b ", "x = a.b ", "if a.b ", "del a.b ", "{a.b ", "f(a.b ", "[a.b ", "a.b().c ", "{a: b.c ", "def f(): return a.b ", "for x in a.b "],
}
# What follows such a text: each token, and the ways in which its line may end.
FOLLOWS = {
    **{"NAME": "y", "NUMBER": "7", "TEXT": "'t'"},
    **{it: it for it in [*KEYWORDS, *OPERATORS]},
    **{"END": "", "LINE": "\nx", "DEEPER": "\n      x", "COMMENT": "# c\n"},
}


def situations():
    """The rows of the table: a text, and for each answer what follows the text so that it is given."""
    for situation, texts in SITUATIONS.items():
        for text in texts:
            begin = text if text[-1:] in ("", " ", "\n") else f"{text} "
            answers = collections.defaultdict(list)
            for name, word in FOLLOWS.items():
                answers[verdict(begin + word)[0]].append(name)
            yield {"name": f"{situation}: {text!r}", "begin": begin, "answers": {it: " ".join(those) for it, those in answers.items()}}


def write():
    rows = [json.dumps(it, ensure_ascii=False) for it in situations()]
    about = "Each situation of reading, and each token after it: what is refused, and which construct is named. Written by tests/reader.py --write."
    with open(f"{CASES}/situations.json", "w", encoding="utf-8") as it:
        it.write(f'{{\n"about": {json.dumps(about)},\n"follows": {json.dumps(FOLLOWS)},\n"cases": [\n' + ",\n".join(rows) + "\n]\n}\n")
    print(f"{len(rows)} situations, {len(FOLLOWS)} follow each")
    return 0


# ---- the tables by hand, held to these rules

MOST_TOKENS = 3_000


def found_of(case):
    """What these rules say of a case beside what it expects; None if they are too slow for it."""
    top, of = ("alone", "source") if "source" in case else ("cell", "text" if "text" in case else "code")
    code = text_of(case[of])
    try:
        if len(tokens_of(code)) > MOST_TOKENS:
            return None
    except Fault:
        pass
    if "completeness" in case:
        return case["completeness"], completeness(code)
    said, is_end = verdict(code, top)
    wanted = case["expect"] if case["expect"] != "accepted" else "accepted"
    return (wanted, case.get("end", is_end)), (said, is_end)


def text_of(it):
    if isinstance(it, str):
        return it
    if "blocks" in it:
        lines = [*([it["top"]] if it["top"] else []), *[it["head"]] * it["blocks"], it["inner"]]
        return "\n".join(" " * depth + line for depth, line in enumerate(lines))
    first, second, third, fourth, fifth = it["pieces"]
    return first + second * it["repeat"] + third + fourth * it["repeat"] + fifth


def spread(row, follows):
    """The codes of a row of the table of situations."""
    for answer, names in row["answers"].items():
        for it in names.split():
            yield {"name": f"{row['name']} and {it}", "code": row["begin"] + follows[it], "expect": answer}


def check():
    counts = collections.Counter()
    for name in sorted(os.listdir(CASES)):
        with open(f"{CASES}/{name}", encoding="utf-8") as it:
            told = json.load(it)
        cases = [it for it in told["cases"] if {"code", "source", "text"} & {*it} and "steps" not in it]
        cases += [it for row in told["cases"] if "begin" in row for it in spread(row, told["follows"])]
        for case in cases:
            found = found_of(case)
            counts["too long" if found is None else "agree" if found[0] == found[1] else "differ"] += 1
            if found and found[0] != found[1]:
                print(f"{name}: {case['name']!r}: the table {found[0]}, the rules {found[1]}")
    print(f"{counts['too long']} too long to be read here\n{counts['agree']} agree, {counts['differ']} differ")
    return 1 if counts["differ"] else 0


def main(words):
    if words == ["--check"]:
        return check()
    if words == ["--write"]:
        return write()
    if len(words) == 1 and words[0] not in ("-h", "--help"):
        print(verdict(words[0])[0])
        return 0
    print(__doc__, end="")
    return 0 if words else 1


def in_deep_thread(words):
    """Trees of 64 levels are walked by calls."""
    found = []
    sys.setrecursionlimit(100_000)
    threading.stack_size(512 * 1024 * 1024)
    it = threading.Thread(target=lambda: found.append(main(words)))
    it.start()
    it.join()
    return found[0] if found else 1


if __name__ == "__main__":
    sys.exit(in_deep_thread(sys.argv[1:]))
