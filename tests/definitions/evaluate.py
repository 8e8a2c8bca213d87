"""Evaluates the plain model's definitions (crates/model/specs) on the worked cases, without the prover: an interpreter for the few forms that they
are written in. A set of positions is a function, so what asks all 2^64 of them is asked stretch by stretch: the function is called with a whole
interval of positions, and where its value is not one and the same, the interval is split there.

    python3 tests/definitions/evaluate.py [--specs FOLDER]      evaluates every case, and says which does not hold
"""

import argparse
import os
import re
import sys
import threading

SHORT = 64  # a walk over at most so many positions goes by the definition itself; a longer one by stretches


# ---- values: numbers and truth values are Python's; a constructor and its parts; a record; positions at which a function is asked as one
class Con:
    __slots__ = ("name", "parts")

    def __init__(self, name, parts=()):
        self.name, self.parts = name, list(parts)


class Record:
    __slots__ = ("fields",)

    def __init__(self, fields):
        self.fields = fields


class Later:
    """An expression that is evaluated when it is asked for, once."""

    __slots__ = ("run", "value")

    def __init__(self, run):
        self.run, self.value = run, None


def force(v):
    while type(v) is Later:
        if v.run is not None:
            run, v.run = v.run, None
            v.value = force(run())
        v = v.value
    return v


class Function:
    __slots__ = ("arity", "call", "given")

    def __init__(self, arity, call, given=()):
        self.arity, self.call, self.given = arity, call, given


def apply(f, args):
    f = force(f)
    while args:
        if not isinstance(f, Function):
            raise Stuck(f"{show(f)} is no function")
        wanted = f.arity - len(f.given)
        if len(args) < wanted:
            return Function(f.arity, f.call, (*f.given, *args))
        now, args = args[:wanted], args[wanted:]
        f = force(f.call(*f.given, *now))
    return f


class Stuck(Exception):
    """No clause fits, or a part is of another form than its use asks."""


class Split(Exception):
    """The positions asked as one differ from this one on."""

    def __init__(self, at):
        self.at = at


class Stretch:
    """The positions low .. high, as what is made of them: (x + shift) / by % rest; by and rest are none where they are not there."""

    __slots__ = ("low", "high", "shift", "by", "rest")

    def __init__(self, low, high, shift=0, by=None, rest=None):
        self.low, self.high, self.shift, self.by, self.rest = low, high, shift, by, rest

    def at(self, x):
        n = x + self.shift
        n = n if self.by is None else n // self.by
        return n if self.rest is None else n % self.rest

    def ends(self):
        if self.rest is None:
            return self.at(self.low), self.at(self.high)
        return 0, self.rest - 1

    def change(self):
        """Splits where the value is another than at the first position."""
        if self.rest is None and self.by is None:
            raise Split(self.low + 1)
        if self.rest is None:
            raise Split((self.at(self.low) + 1) * self.by - self.shift)
        raise Split(self.low + 1 if self.by is not None else self.next_turn())

    def next_turn(self):
        return self.low + self.rest - (self.low + self.shift) % self.rest

    def single(self):
        low, high = self.ends()
        if low == high:
            return low
        self.change()

    def is_below(self, n):
        """Whether every value is below n."""
        low, high = self.ends()
        if high < n:
            return True
        if low >= n:
            return False
        if self.rest is not None:
            raise Split(self.next_turn())
        raise Split(n * (self.by or 1) - self.shift)

    def is_one(self, n):
        low, high = self.ends()
        if n < low or high < n:
            return False
        if low == high:
            return True
        self.is_below(n) or self.is_below(n + 1)
        raise Split(self.low + 1)

    def plus(self, n):
        if self.by is not None or self.rest is not None:
            return self.single() + n
        return Stretch(self.low, self.high, self.shift + n)

    def minus(self, n):
        if self.by is not None or self.rest is not None:
            return max(self.single() - n, 0)
        if self.is_below(n):
            return 0
        return Stretch(self.low, self.high, self.shift - n)

    def over(self, n):
        if self.by is not None or self.rest is not None:
            return self.single() // n
        return Stretch(self.low, self.high, self.shift, n)

    def modulo(self, n):
        if self.by is not None or self.rest is not None:
            return self.single() % n
        first, last = self.low + self.shift, self.high + self.shift
        if first // n == last // n:
            return Stretch(self.low, self.high, self.shift - first // n * n)
        return Stretch(self.low, self.high, self.shift, None, n)


def number(v):
    v = force(v)
    if type(v) is Stretch:
        return v.single()
    if type(v) is not int:
        raise Stuck(f"{show(v)} is no number")
    return v


def numeric(v):
    v = force(v)
    if type(v) is Stretch:
        low, high = v.ends()
        return low if low == high and v.rest is None else v
    if type(v) is not int:
        raise Stuck(f"{show(v)} is no number")
    return v


def truth(v):
    v = force(v)
    if type(v) is not bool:
        raise Stuck(f"{show(v)} is no truth value")
    return v


def stretches(P, first, count):
    """The values of a set on the positions first .. first + count - 1: first and last position, and the value, of each stretch; a stretch may be parted."""
    todo = [(first, first + count - 1)] if count > 0 else []
    steps = 0
    while todo:
        low, high = todo.pop()
        steps += 1
        if steps > 200_000:
            raise Stuck("too many stretches")
        try:
            value = truth(apply(P, [Stretch(low, high) if low < high else low]))
        except Split as split:
            at = split.at
            if not low < at <= high:
                at = low + 1
            todo += [(at, high), (low, at - 1)]
            continue
        yield low, high, value


def merged(P, first, count):
    run = None
    for low, high, value in stretches(P, first, count):
        if run and run[2] == value:
            run = (run[0], high, value)
        else:
            if run:
                yield run
            run = (low, high, value)
    if run:
        yield run


# ---- lists
NIL = Con("[]")


def cons(head, tail):
    return Con("∷", (head, tail))


def items(v):
    v = force(v)
    while v.name == "∷":
        yield v.parts[0]
        v = force(v.parts[1])
    if v.name != "[]":
        raise Stuck(f"{show(v)} is no list")


def listed(values):
    made = NIL
    for it in reversed(list(values)):
        made = cons(it, made)
    return made


def append(a, b):
    a = force(a)
    return b if a.name == "[]" else cons(a.parts[0], Later(lambda: append(a.parts[1], b)))


def take(n, v):
    out = []
    for it in items(v):
        if len(out) == n:
            break
        out.append(it)
    return listed(out)


def drop(n, v):
    v = force(v)
    while n > 0 and v.name == "∷":
        v, n = force(v.parts[1]), n - 1
    return v


def get_or(v, n, default):
    v = drop(n, v)
    return v.parts[0] if v.name == "∷" else default


# ---- words of the library
def compared(a, b):
    """Whether a < b."""
    a, b = numeric(a), numeric(b)
    if type(a) is int and type(b) is int:
        return a < b
    if type(a) is Stretch and type(b) is int:
        return a.is_below(b)
    if type(a) is int:
        return not b.is_below(a + 1)
    return a.single() < b.single()


def same_number(a, b):
    a, b = numeric(a), numeric(b)
    if type(a) is int and type(b) is int:
        return a == b
    if type(a) is Stretch and type(b) is int:
        return a.is_one(b)
    if type(a) is int:
        return b.is_one(a)
    return a.single() == b.single()


def plus(a, b):
    a, b = numeric(a), numeric(b)
    if type(a) is int:
        a, b = b, a
    if type(a) is int:
        return a + b
    return a.plus(number(b))


def minus(a, b):
    a, b = numeric(a), numeric(b)
    if type(a) is Stretch:
        return a.minus(number(b))
    return max(a - number(b), 0)


def over(a, b):
    a, b = numeric(a), number(b)
    if b == 0:
        return 0
    return a.over(b) if type(a) is Stretch else a // b


def modulo(a, b):
    a, b = numeric(a), number(b)
    if b == 0:
        return number(a)
    return a.modulo(b) if type(a) is Stretch else a % b


def power(a, b):
    a, b = number(a), number(b)
    if b > 70_000:
        raise Stuck("too high a power")
    return a**b


WORDS = {
    "true": True,
    "false": False,
    "zero": 0,
    "[]": NIL,
    "None": Con("None"),
    "tt": Con("tt"),
    "suc": (1, lambda n: plus(n, 1)),
    "cond": (3, lambda c, a, b: a if truth(c) else b),
    "not": (1, lambda a: not truth(a)),
    "leb": (2, lambda a, b: not compared(b, a)),
    "ltb": (2, compared),
    "eqb": (2, same_number),
    "beq": (2, lambda a, b: truth(a) == truth(b)),
    "min": (2, lambda a, b: min(number(a), number(b))),
    "max": (2, lambda a, b: max(number(a), number(b))),
    "length": (1, lambda v: sum(1 for _ in items(v))),
    "take": (2, lambda n, v: take(number(n), v)),
    "drop": (2, lambda n, v: drop(number(n), v)),
    "get_or": (3, lambda v, n, d: get_or(v, number(n), d)),
    "map": (2, lambda f, v: listed([Later(lambda it=it: apply(f, [it])) for it in items(v)])),
}
OPERATORS = {  # how tightly it binds, whether it goes to the right, and what it does
    "||": (20, True, lambda a, b: truth(a) or truth(b)),
    "&&": (30, True, lambda a, b: truth(a) and truth(b)),
    "≡": (40, False, None),
    "==": (40, False, same_number),
    "∷": (50, True, cons),
    "++": (50, True, append),
    "when": (60, False, lambda a, b: Record({"cause": a, "holds": b})),
    "gives": (60, False, lambda a, b: Record({"call": a, "answer": Con("gave", [b])})),
    "earns": (60, False, lambda a, b: Record({"call": a, "answer": Con("refused", [b])})),
    "+": (70, False, plus),
    "-": (70, False, minus),
    "*": (80, False, lambda a, b: number(a) * number(b)),
    "/": (80, False, over),
    "%": (80, False, modulo),
    "^": (90, True, power),
}


# ---- reading
TOKEN = re.compile(r"\s+|[()\[\]{};,]|λ|[^\s()\[\]{};,]+")


def tokens(text):
    for m in TOKEN.finditer(text):
        if not m[0].isspace():
            yield m[0]


def is_binder(word):
    return word.endswith(".") and len(word) > 1


class Reader:
    def __init__(self, text):
        self.words, self.at = list(tokens(text)), 0

    def peek(self):
        return self.words[self.at] if self.at < len(self.words) else None

    def next(self):
        self.at += 1
        return self.words[self.at - 1]

    def expect(self, word):
        got = self.next()
        if got != word:
            raise SyntaxError(f"{word} expected, not {got}")

    def expression(self, least=0):
        left = self.application()
        while True:
            word = self.peek()
            if word not in OPERATORS or OPERATORS[word][0] < least:
                return left
            tight, to_right, _ = OPERATORS[self.next()]
            left = ("op", word, left, self.expression(tight if to_right else tight + 1))

    def application(self):
        if self.peek() == "λ":
            self.next()
            names = []
            while True:
                word = self.next()
                if is_binder(word):
                    names.append(word[:-1])
                    break
                names.append(word)
            return ("lambda", names, self.expression())
        parts = [self.atom()]
        while (word := self.peek()) is not None and word not in OPERATORS and word not in (")", "]", "}", ";", ","):
            parts.append(self.atom())
        return parts[0] if len(parts) == 1 else ("apply", parts[0], parts[1:])

    def atom(self):
        word = self.next()
        if word == "(":
            made = self.expression()
            self.expect(")")
        elif word == "[":
            self.expect("]")
            made = ("name", "[]")
        elif word == "record":
            made = self.record()
        elif re.fullmatch(r"\d+|0x[0-9A-Fa-f]+", word):
            made = ("number", int(word, 0))
        else:
            made = ("name", word)
        while (word := self.peek()) is not None and word.startswith(".") and len(word) > 1:
            for field in self.next()[1:].split("."):
                made = ("field", made, field.strip("«»"))
        return made

    def record(self):
        old = None
        if self.peek() != "{":
            old = self.atom()
        self.expect("{")
        fields = []
        while self.peek() != "}":
            name = self.next().strip("«»")
            self.expect("=")
            fields.append((name, self.expression()))
            if self.peek() == ";":
                self.next()
        self.expect("}")
        return ("record", old, fields)

    def pattern(self):
        word = self.next()
        if word == "(":
            first = self.pattern_row(")")
            self.expect(")")
            return first
        if word == "[":
            self.expect("]")
            return ("con", "[]", [])
        return ("word", word)

    def pattern_row(self, end):
        parts = []
        while self.peek() != end:
            if self.peek() == "∷":
                self.next()
                return ("con", "∷", [row_of(parts), self.pattern_row(end)])
            parts.append(self.pattern())
        return row_of(parts)


def row_of(parts):
    return parts[0] if len(parts) == 1 else ("con", parts[0][1], parts[1:])


STARTS = re.compile(r"(use|abbrev|unfoldable|pub|infix|--|module|open)\b|--")


class Module:
    """A file of specs/: what it imports, its definitions, its constructors."""

    def __init__(self, name, text):
        self.name, self.imports, self.folders, self.defined, self.types, self.constructors = name, {}, {}, {}, {}, set()
        text = re.sub(r"(?m)(^|\s)--.*$", r"\1", text)
        for block in self.blocks(text):
            self.block(block)

    @staticmethod
    def blocks(text):
        block = []
        for line in text.split("\n"):
            goes_on = not line.strip() or line[0].isspace() or line[0] in "}])"
            if not goes_on and block:
                yield "\n".join(block)
                block = []
            block.append(line)
        if block:
            yield "\n".join(block)

    def block(self, text):
        head = text.strip()
        if not head:
            return
        if head.startswith(("use ", "pub use ")):
            m = re.match(r"(?:pub )?use ([\w.]+?)(?:\.\{(.*)\}|\.(\w+)(?: as (\w+))?)$", " ".join(head.split()))
            source = m[1].rsplit(".", 1)[-1]
            if m[2] is None:
                self.folders[m[4] or m[3]] = m[3]
                return
            for it in re.split(r",\s*", m[2].strip().strip(",")):
                it = it.strip()
                if it:
                    name, _, other = it.partition(" as ")
                    self.imports[other or name] = (m[1], source, name)
        elif head.startswith(("pub data ", "data ")):
            for line in text.split("\n")[1:]:
                if " : " in line:
                    self.constructors |= set(line.split(" : ")[0].split())
        elif head.startswith(("pub record ", "record ", "infix ", "module ", "open ", "pub mod ")):
            pass
        elif m := re.match(r"(?:abbrev |unfoldable )?(?:pub )?(\S+) :(?= |\n)(.*)", head, re.S):
            result = re.split(r"→", m[2])[-1].strip()
            self.defined[m[1]] = None if result == "Type 0" else []
            self.types[m[1]] = " ".join(m[2].split())
        else:
            name = head.split()[0]
            if "◌" in name or self.defined.get(name, 0) is None:
                return
            if name not in self.defined and head.split()[1] in OPERATORS:
                return
            left, right = re.split(r"\s=(?=\s)", text, maxsplit=1)
            reader = Reader(left)
            reader.next()
            patterns = []
            while reader.peek() is not None:
                patterns.append(reader.pattern())
            if decided := re.fullmatch(r"\s*elim \(cause-discrete (\w+) (\w+)\) \[ yes e ↦ (\w+) \| no e ↦ (\w+) \]\s*", right):
                right = "cond (is_cause_of {} {}) {} {}".format(*decided.groups())
            self.defined[name].append((patterns, Reader(right).expression()))


# ---- running
READ = {}


class Model:
    def __init__(self, folder, change=None):
        """change: a file, a text of it and what stands in its place."""
        self.modules, self.made = {}, {}
        for file in sorted(os.listdir(folder)):
            if file.endswith(".antt") and file not in ("Lib.antt", "RunList.antt", "Answers.antt", "Neighbours.antt"):
                with open(os.path.join(folder, file), encoding="utf-8") as f:
                    text = f.read()
                if change and change[0] == file:
                    for old, new in change[1]:
                        if text.count(old) != 1:
                            raise SystemExit(f"{file}: this stands there {text.count(old)} times and not once: {old}")
                        text = text.replace(old, new)
                if (file, text) not in READ:
                    READ[file, text] = Module(file[:-5], text)
                self.modules[file[:-5]] = READ[file, text]
        self.native = {
            ("Positions", "count"): self.count,
            ("Positions", "find"): self.find,
            ("Positions", "select"): self.select,
            ("Positions", "runs_in"): self.runs_in,
            ("Positions", "gap"): self.gap,
        }

    def tables(self, kind):
        return [(m, name) for m, module in self.modules.items() for name, of in module.types.items() if of == kind]

    # what asks many positions, by stretches
    def count(self, P, v, a, n):
        return sum(high - low + 1 for low, high, value in stretches(P, number(a), number(n)) if value == truth(v))

    def find(self, P, v, a, n):
        for low, _, value in stretches(P, number(a), number(n)):
            if value == truth(v):
                return Con("Some", [low])
        return Con("None")

    def select(self, P, v, a, n, k):
        k = number(k)
        for low, high, value in stretches(P, number(a), number(n)):
            if value == truth(v):
                if k <= high - low:
                    return Con("Some", [low + k])
                k -= high - low + 1
        return Con("None")

    def runs_in(self, P, v, a, n):
        return listed(Record({"start": low, "end": high}) for low, high, value in merged(P, number(a), number(n)) if value == truth(v))

    def gap(self, P, a, k, n):
        a, k, n = number(a), number(k), number(n)
        if n == 0:
            return Con("Some", [a]) if k + 1 > 0 else Con("None")
        for low, high, value in merged(P, a, k):
            if not value and high - low + 1 >= n:
                return Con("Some", [low])
        return Con("None")

    def constant(self, module, name):
        """The value of a name that is defined in a module."""
        key = (module, name)
        if key in self.made:
            return self.made[key]
        clauses = self.modules[module].defined[name]
        if not clauses:
            raise Stuck(f"{module}.{name} has no clause")
        arity = len(clauses[0][0])
        compiled = [([self.match(self.modules[module], p) for p in patterns], self.compile(self.modules[module], body)) for patterns, body in clauses]

        def call(*args):
            for patterns, body in compiled:
                names = {}
                if all(p(arg, names) for p, arg in zip(patterns, args)):
                    return body(names)
            raise Stuck(f"no clause of {name} fits")

        if arity == 0:
            made = Later(call)
        elif key in self.native:
            native, long = self.native[key], {"count": 3, "find": 3, "select": 3, "runs_in": 3, "gap": 2}[name]

            def chosen(*args):
                n = numeric(args[long])
                return native(*args) if type(n) is int and n > SHORT else call(*args)

            made = Function(arity, chosen)
        elif arity == 1:
            told = {}

            def once(arg):
                arg = force(arg)
                if type(arg) is not int:
                    return call(arg)
                if arg not in told:
                    told[arg] = force(call(arg))
                return told[arg]

            made = Function(1, once)
        else:
            made = Function(arity, call)
        self.made[key] = made
        return made

    def is_constructor(self, module, word):
        if word in module.constructors:
            return True
        if word in module.imports:
            path, source, name = module.imports[word]
            if path.endswith("TheVariants"):
                return True
            if source in self.modules and ".model." in path:
                return name in self.modules[source].constructors
            return name in ("None", "Some", "true", "false", "[]", "zero", "suc", "Ok", "Err", "◌∷◌")
        return False

    def match(self, module, pattern):
        if pattern[0] == "word":
            word = pattern[1]
            if word == "_":
                return lambda arg, names: True
            if not self.is_constructor(module, word):
                return lambda arg, names: names.__setitem__(word, arg) or True
            pattern = ("con", word, [])
        name, parts = pattern[1].split(".")[-1], [self.match(module, p) for p in pattern[2]]
        if name in ("true", "false"):
            return lambda arg, names: truth(arg) == (name == "true")
        if name == "zero":
            return lambda arg, names: same_number(arg, 0)
        if name == "suc":
            return lambda arg, names: not same_number(arg, 0) and parts[0](minus(arg, 1), names)

        def fits(arg, names):
            arg = force(arg)
            if type(arg) is not Con:
                raise Stuck(f"{show(arg)} where {name} is asked")
            return arg.name == name and all(p(it, names) for p, it in zip(parts, arg.parts))

        return fits

    def name(self, module, word):
        """What a name that is no variable means in a module."""
        if word in module.defined:
            return self.constant(module.name, word)
        if word in module.constructors:
            return constructor(word)
        if word in module.imports:
            path, source, name = module.imports[word]
            if ".model." in path and source in self.modules:
                return self.name(self.modules[source], name)
            if path.endswith("TheVariants") or name in ("Some", "Ok", "Err"):
                return constructor(name)
        if word in WORDS:
            made = WORDS[word]
            return Function(*made) if type(made) is tuple else made
        if word == "is_cause_of":
            return Function(2, lambda k, j: force(k).name == force(j).name)
        raise SystemExit(f"{module.name}: {word} is not known")

    def compile(self, module, it):
        """An expression as a function of the variables."""
        kind = it[0]
        if kind == "number":
            return lambda names: it[1]
        if kind == "name":
            word, *fields = it[1].replace("«", "").replace("»", "").split(".")
            if it[1] in ("...",):
                raise SyntaxError(it[1])

            def named(names):
                if word in names:
                    v = names[word]
                elif fields and word in module.folders:
                    v = self.name(self.modules[module.folders[word]], fields[0])
                    return v
                else:
                    v = self.name(module, word)
                for field in fields:
                    v = part(v, field)
                return v

            return named
        if kind == "field":
            of = self.compile(module, it[1])
            return lambda names: part(of(names), it[2])
        if kind == "lambda":
            body, binders = self.compile(module, it[2]), it[1]
            return lambda names: Function(len(binders), lambda *args: body({**names, **dict(zip(binders, args))}))
        if kind == "record":
            old, fields = it[1] and self.compile(module, it[1]), [(n, self.compile(module, e)) for n, e in it[2]]

            def recorded(names):
                made = dict(force(old(names)).fields) if old else {}
                made.update({n: Later(lambda e=e: e(names)) for n, e in fields})
                return Record(made)

            return recorded
        if kind == "op":
            act, left, right = OPERATORS[it[1]][2], self.compile(module, it[2]), self.compile(module, it[3])
            return lambda names: act(Later(lambda: left(names)), Later(lambda: right(names)))
        of, args = self.compile(module, it[1]), [self.compile(module, a) for a in it[2]]
        return lambda names: apply(of(names), [Later(lambda a=a: a(names)) for a in args])


ARITIES = {}


def constructor(name):
    """A constructor takes what it is given: its parts come one by one."""
    if name in WORDS:
        made = WORDS[name]
        return Function(*made) if type(made) is tuple else made
    count = ARITIES.get(name, 0)
    return Con(name) if count == 0 else Function(count, lambda *parts: Con(name, parts))


def part(v, field):
    v = force(v)
    if type(v) is not Record or field not in v.fields:
        raise Stuck(f"{show(v)} has no {field}")
    return v.fields[field]


def show(v, deep=0):
    v = force(v)
    if deep > 6:
        return ".."
    if type(v) is Con:
        if v.name in ("[]", "∷"):
            values = [show(it, deep + 1) for _, it in zip(range(12), items(v))]
            return "[" + ", ".join(values) + "]"
        return " ".join([v.name, *(f"({show(p, deep + 1)})" for p in v.parts)])
    if type(v) is Record:
        return "{" + ", ".join(f"{n} = {show(f, deep + 1)}" for n, f in v.fields.items()) + "}"
    if isinstance(v, Function):
        return "a function"
    return str(v)


def same(a, b):
    """Whether two values are the same; sets of positions are, where they hold the same positions."""
    a, b = force(a), force(b)
    if type(a) is not type(b):
        return False
    if type(a) is Con:
        while a.name == "∷" and b.name == "∷":
            if not same(a.parts[0], b.parts[0]):
                return False
            a, b = force(a.parts[1]), force(b.parts[1])
        return a.name == b.name and len(a.parts) == len(b.parts) and all(same(p, q) for p, q in zip(a.parts, b.parts))
    if type(a) is Record:
        return a.fields.keys() == b.fields.keys() and all(same(f, b.fields[n]) for n, f in a.fields.items())
    if isinstance(a, Function):
        whole = 2**64 + 2**20
        return list(merged(a, 0, whole)) == list(merged(b, 0, whole))
    return a == b


def arities(folder):
    """How many parts each constructor has, by its type."""
    for file in os.listdir(folder):
        if file.endswith(".antt"):
            with open(os.path.join(folder, file), encoding="utf-8") as f:
                text = re.sub(r"(?m)(^|\s)--.*$", r"\1", f.read())
            for data in re.findall(r"(?m)^(?:pub )?data .*\n((?:[ ].*\n|\n)+)", text):
                for names, kind in re.findall(r"(?m)^\s+(\S+(?: \S+)*?) : (.*)$", data):
                    for name in names.split():
                        ARITIES[name] = len(re.sub(r"\([^()]*\)", "x", kind).split("→")) - 1
    ARITIES.update({"Some": 1, "Ok": 1, "Err": 1, "Included": 1, "Excluded": 1})


def cases(model):
    """What is to hold, and for each a function that says what of it does not, if anything: the rows of every table of specs/, a table being a definition
    whose type is a list of rows; and at a few values what is said of all values."""

    def row(module, c, **due):
        names = {"c": c}
        say = {name: model.compile(model.modules[module], Reader(text).expression())(names) for name, text in due.items()}
        wrong = told_apart(say["told"], say["answers"])
        return wrong or (None if same(say["held"], say["left"]) else "what is held in the end")

    kinds = {
        "List Case": lambda c: row(
            "Cases", c, told="answers c.capacity (alone c.capacity empty) (map on_first c.calls)", answers="c.answers-are",
            held="after c.capacity (alone c.capacity empty) (map on_first c.calls)", left="alone c.capacity (mem c.runs-are)"
        ),
        "List PoolCase": lambda c: row(
            "Worked", c, told="answers c.capacity [] (map (told_as (plan fed_as)) c.calls)", answers="c.answers-are",
            held="after c.capacity [] (map (told_as (plan fed_as)) c.calls)", left="map opened_as c.worlds-are"
        ),
        "List HandledCase": lambda c: None if same(part(c, "call"), part(c, "is")) else f"{show(part(c, 'call'))}, not {show(part(c, 'is'))}",
    }
    for kind, holds in kinds.items():
        for folder, name in model.tables(kind):
            for at, case in enumerate(items(model.constant(folder, name))):
                yield f"{name}, row {at + 1}", lambda case=case, holds=holds: holds(case)

    def value(text):
        return model.compile(model.modules["Worked"], Reader(text).expression())({})

    asked = {
        "a store of a wrong length is not made": ("(make_by true 4 [] []).answer", "refused 1"),
        "a store of a wrong length is not measured": ("(measure_by true 4 [] (deepest 0) []).answer", "refused 1"),
        "a store of a wrong length is measured for no list": ("(measure_by true 4 [] (why_full []) []).answer", "refused 1"),
    }
    for name, (told, due) in asked.items():
        yield name, lambda told=told, due=due: None if same(value(told), value(due)) else f"{show(value(told))}, not {due}"


def told_apart(answers, due):
    answers, due = list(items(answers)), list(items(due))
    for k, (a, b) in enumerate(zip(answers, due)):
        if not same(a, b):
            return f"call {k + 1}: {show(a)}, not {show(b)}"
    return None if len(answers) == len(due) else f"{len(answers)} answers, not {len(due)}"


def judged(check):
    try:
        return check()
    except (Stuck, Split, RecursionError, KeyError, IndexError, AttributeError, TypeError, ZeroDivisionError) as why:
        return f"can't be evaluated: {type(why).__name__} {str(why)[:200]}"


def deep(run):
    """Runs something with room for deep recursion."""
    sys.setrecursionlimit(400_000)
    threading.stack_size(512 << 20)
    told = []

    def kept():
        try:
            told.append((run(), None))
        except BaseException as why:  # it is raised again below, where it is seen
            told.append((None, why))

    thread = threading.Thread(target=kept)
    thread.start()
    thread.join()
    value, why = told[0]
    if why:
        raise why
    return value


def main():
    flags = argparse.ArgumentParser()
    flags.add_argument("--specs", default=os.path.join(os.path.dirname(__file__), "../../crates/model/specs"))
    specs = flags.parse_args().specs
    arities(specs)
    bad = 0
    model = Model(specs)
    for name, check in cases(model):
        why = judged(check)
        if why:
            bad += 1
            print(f"{name}: {why}")
    print("every case holds" if not bad else f"{bad} cases do not hold")
    return bad == 0


if __name__ == "__main__":
    sys.exit(0 if deep(main) else 1)
