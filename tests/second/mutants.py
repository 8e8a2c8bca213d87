#!/usr/bin/env python3
"""Builds wrong builds of second.cpp, plays the lists of the conformance pack with each, and tells which the lists catch.

A wrong build is one edit: by the rules below, or by hand (by_hand.py). The lists have to catch each by two lines at least, unless equivalent.txt says why it
answers as the right one does. Works in target/second, with two builds at once; what the same lists said of a build is kept there.

    --sample N   builds at most N of those that are to be caught, chosen by their names
    --missing    plays missing.calls with those that the last run found to be caught by one line or by none, and writes missing.txt, which says by
                 which lines of it each is caught
"""

import argparse
import atexit
import concurrent.futures
import hashlib
import json
import os
import re
import shutil
import subprocess
import sys
import zlib

import by_hand

HERE = os.path.dirname(os.path.abspath(__file__))
ROOT = os.path.join(HERE, "..", "..")
PACK = os.path.join(ROOT, "conformance")
WORK = os.path.join(ROOT, "target", "second")
HEADERS = os.path.join(WORK, f"headers-{os.getpid()}.h")
KNOWN = os.path.join(WORK, "outcomes.json")  # of earlier runs with the same lists
COMPILER = shutil.which("clang++") or shutil.which("g++")
SECONDS = 2  # of processor time that a wrong build may take for all lists; the right one takes a fifth of one

# what reads lines and writes answers is no part of a set's meaning, and is left as it is
SPARED = {"Line", "main", "play", "answer", "store", "place", "text", "hex", "refused", "call_words", "kTop", "kLent", "kLentWord"}

# which refusals a function decides about
REFUSALS = {"no_pool": 1, "unsound": 7, "unopened": 12, "no_window": 6, "map_bytes": 6, "no_rect": 15, "disordered": 5, "fits": 8, "blamed": 16}
# which calls a function that is none of its own answers
CALLS = {"set_range": "set set_strict", "flip_range": "flip flip_strict", "tally_range": "tally tally_strict", "cells_of": "set_rect count_rect survey",
         "no_rect": "set_rect count_rect", "moved": "shift shifted", "inverted": "not", "same": "eq", "listing": "ranges draw_front draw_back",
         "misformed": "load mend convert", "told": "load mend convert", "place_of": "load mend convert write_set", "written_set": "write_set mend convert",
         "outcome_of": "mend", "fates_of": "mend", "survey_of": "survey", "fewest": "deepest", "deepest_of": "deepest", "blamed": "why_full",
         "no_window": "read_map clear_map write_map fill", "map_bytes": "read_map clear_map write_map", "recorded": "record",
         "disordered": "load build convert",
         "kWorlds": "new", "kHeights": "deepest", "kWindow": "read_map clear_map write_map fill", "kSide": "set_rect count_rect survey",
         "drawn": "draw_front draw_back", "left_over": "ranges draw_front draw_back", "lent": "write_set mend convert write_map",
         "written": "write_set mend convert write_map", "worded": "deepest why_full survey", "number_and_runs": "tally tally_strict"}
NAMES = """new deepest why_full set flip get run_at find tally set_strict flip_strict tally_strict select gap ranges draw_front draw_back shift shifted
combine not eq load mend build write_set convert read_map clear_map write_map fill set_rect count_rect survey frame record empty spoil""".split()


class Mutant:
    def __init__(self, rule, function, old, new, text, calls=None, refusals=None, line=None, instead=None):
        self.rule, self.function, self.text = rule, function, text
        self.line, self.instead = line, instead  # where the edit is of one line: which, and what stands for it
        self.key = f"{function}: {' '.join(old.split())} => {' '.join(new.split()) or 'nothing'}"
        self.calls = calls if calls is not None else calls_of(function)
        self.refusals = refusals if refusals is not None else refusals_of(function, old + " " + new)
        self.name = hashlib.sha256(text.encode()).hexdigest()[:16]


def calls_of(function):
    name = function[5:] if function.startswith("call_") else function
    return [name] if name in NAMES else CALLS.get(name, "").split()


def refusals_of(function, edit):
    """The refusals whose tests are edited."""
    out = {int(n) for n in re.findall(r"refus(?:ed|al)\((\d+)\)", edit)}
    if function in REFUSALS:
        out.add(REFUSALS[function])
    if function == "misformed":
        out |= {3, 4} & ({int(n) for n in re.findall(r"return (\d)", edit)} or {3})
    if "reversed" in edit:
        out.add(14)
    if "fits(" in edit:
        out.add(8)
    return sorted(out)


def functions(lines):
    """The name of the function, or of the constant, that each line is of; None for lines that are of none."""
    out, name, inside_line = [], None, False
    for line in lines:
        if line == "struct Line {":
            inside_line = True
        start = re.match(r"(?:    )?[A-Za-z_:][\w:<>]* [&*]?(?:\w+::)?(\w+)\([^;]*\{(.*\})?$", line)
        constant = re.match(r"const \w+ (k\w+)", line)
        if constant:
            out.append(constant[1])
            continue
        if start and not line.strip().startswith(("if", "for", "while", "return", "else", "switch")):
            name = start[1]
        out.append("Line" if inside_line else name)
        if line in ("}", "    }", "};") or (start and start[2]):
            name = None
        if line == "};":
            inside_line = False
    return out


# ---- rules: each gives what a line may become

RELATIONS = {"<": "<=", "<=": "<", ">": ">=", ">=": ">", "==": "!=", "!=": "=="}


def code(line):
    """The line without its comment, as long as it holds one."""
    return re.sub(r"\s*//.*", "", line)


def replaced(line, match, text):
    return line[:match.start()] + text + line[match.end():]


def relation(line):
    for m in re.finditer(r"(?<= )(<|<=|>|>=|==|!=)(?= )", line):
        yield replaced(line, m, RELATIONS[m[0]])


def logic(line):
    for m in re.finditer(r"&&|\|\|", line):
        yield replaced(line, m, "||" if m[0] == "&&" else "&&")


def one(line):
    for m in re.finditer(r" [+-] 1\b(?! <<)", line):
        yield replaced(line, m, "")


def plus(line):
    for m in re.finditer(r"(?<= )[+-](?= )", line):
        yield replaced(line, m, "-" if m[0] == "+" else "+")


def constant(line):
    if '"' in line or "push_back" in line and "cells" not in line or "Runs(1" in line or "256 *" in line:
        return
    for m in re.finditer(r"(?<![\w.])\d+(?![\w.])", line):
        if line[:m.start()].endswith(("refused(", "refusal(")):
            continue
        yield replaced(line, m, str(int(m[0]) + 1))
        if line.startswith("const"):
            yield replaced(line, m, str(int(m[0]) - 1))


def dropped(line):
    text = line.strip()
    if re.match(r"if \(.*;$", text) or re.match(r"case \d+: ", text) or re.match(r"(\w[\w.()*\[\]/ ]*|\*\w+) ([-+]?=) .*;$", text) and not re.match(
            r"(const )?(Number|Runs?|bool|Count|Bytes|string|Place|Range|Rect|Answer|World|Store|Part|size_t|int|unsigned char|"
            r"vector<\w+>|Operation|Bound)\b", text):
        yield ""
    elif re.match(r"(\w+\.push_back|add|\w+\.insert|runs_of\(p\)\.clear)\(.*;$", text) or re.match(r"\w+\+\+;$", text):
        yield ""


def condition(line):
    """Drops an operand of the && or || of an if, an assignment or a return, where all of them are alike and none is in parentheses."""
    m = re.match(r"(\s*if \()(.*)(\) (?:return|continue|break|\{).*)$", line) or re.match(r"(.* = |\s*return )(.*)(;)$", line)
    if not m or "?" in m[2]:
        return
    for op, other in ((" || ", " && "), (" && ", " || ")):
        parts = m[2].split(op)
        if len(parts) > 1 and other not in m[2] and all(p.count("(") == p.count(")") for p in parts):
            for i in range(len(parts)):
                yield m[1] + op.join(parts[:i] + parts[i + 1:]) + m[3]


def swapped_words(line):
    if "line." in line or '"' in line:
        return
    for a, b in (("lesser(", "larger("), ("true", "false"), ("kAnd", "kOr"), ("kOr", "kXor"), (".first", ".last"), (".start", ".end"), ("row", "column")):
        for old, new in ((a, b), (b, a)):
            for m in re.finditer(r"(?<!\w)" + re.escape(old) if old[0] != "." else re.escape(old) + r"(?![\w(])", line):
                yield replaced(line, m, new)


def arguments(line):
    for m in re.finditer(r"\b(?!lesser|larger)([a-z_]\w*)\(([^(),]+), ([^(),]+)\)", line):
        if not re.match(r"\s*[A-Z]?\w+ ", line) or " = " in line or "return" in line or "for (" in line:
            yield replaced(line, m, f"{m[1]}({m[3]}, {m[2]})")
    for m in re.finditer(r"\{([^{},]+), ([^{},]+)\}", line):
        yield replaced(line, m, "{" + f"{m[2]}, {m[1]}" + "}")


def negation(line):
    for m in re.finditer(r"!(?=value|held|unsound|a\.)|(?<=, )(?=value\b)|(?<=\()(?=value\))", line):
        yield replaced(line, m, "" if m[0] else "!")


def another_number(line):
    for m in re.finditer(r"(?<=refused\()\d+|(?<=refusal\()\d+", line):
        if m[0] in ("1", "7", "12"):  # so many tests of these are dropped and put in another order that a number more is nothing new
            continue
        yield replaced(line, m, {"8": "2", "2": "8", "6": "2", "10": "6", "14": "5", "15": "6", "9": "6", "5": "3", "11": "1",
                                 "13": "8", "16": "2"}[m[0]])


RULES = {"< for <=": relation, "&& for ||": logic, "without + 1 or - 1": one, "+ for -": plus, "a constant changed": constant, "a statement dropped": dropped,
         "a condition dropped": condition, "a word for its partner": swapped_words, "arguments swapped": arguments, "a value negated": negation,
         "another refusal": another_number}


def by_rules(source):
    lines = source.split("\n")
    of = functions(lines)
    for i, line in enumerate(lines):
        name = of[i]
        if name is None or name in SPARED or re.match(r"(?:    )?[\w:<>]+ [&*]?\w+\([^;]*\{$", line):
            continue
        bare = code(line)
        for rule, make in RULES.items():
            for new in make(bare):
                yield Mutant(rule, name, line, new, "\n".join(lines[:i] + [new] + lines[i + 1:]), line=i, instead=new)
        # two refusals that follow each other, in the other order
        if i + 1 < len(lines) and all("return refus" in x and x.strip().startswith("if") for x in lines[i:i + 2]):
            a, b = (re.findall(r"refused\((\w+)\)", x) for x in (line, lines[i + 1]))
            if a != b:
                yield Mutant("two refusals in the other order", name, line + lines[i + 1], lines[i + 1] + line,
                             "\n".join(lines[:i] + [lines[i + 1], line] + lines[i + 2:]), line=i, instead=lines[i + 1] + "\n" + line)
        # 12 before 7, or before 1, of a call that tests it later
        if re.match(r"        if \(unsound\(\*p\.store\)\) return refused\(7\);", line):
            early = "        if (unopened(p)) return refused(12);"
            yield Mutant("12 before 7", name, line, early + line, "\n".join(lines[:i] + [early] + lines[i:]), line=i, instead=early + "\n" + line)
        # 8 by something else, in one call
        m = re.search(r"!fits\(p, ([\w.]+\(\))\)", line)
        if m:
            for what, wrong in by_hand.ROOM.items():
                new = line.replace(m[0], "!" + re.sub(r"\bN\b", m[1], wrong))
                yield Mutant("8 by something else: " + what, name, line, new, "\n".join(lines[:i] + [new] + lines[i + 1:]), refusals=[8], line=i, instead=new)


def by_hands(source):
    for function, old, new, why, *more in by_hand.EDITS:
        start = re.search(r"^(    )?[A-Za-z_:][\w:<>]* [&*]?" + function + r"\([^;\n]*\{", source, re.M)
        ends = [source.find(end, start.start()) for end in ("\n}\n", "\n    }\n")] if start else []
        ends = [end + 8 for end in (ends[1:] if start[1] else ends[:1])] if start else []
        at = source.find(old, start.start(), ends[0]) if start else -1
        if at < 0:
            sys.exit(f"by_hand.py: {function} has no {old!r}")
        calls = more[0].split() if more and more[0] is not None else None
        refusals = more[1] if len(more) > 1 else None
        begin, end = source.rfind("\n", 0, at) + 1, source.find("\n", at + len(old))
        single = "\n" not in source[begin:end]
        mutant = Mutant("by hand", function, old, new, source[:at] + new + source[at + len(old):], calls, refusals,
                        source.count("\n", 0, at) if single else None, source[begin:at] + new + source[at + len(old):end])
        mutant.key = f"{function}: {why}"
        yield mutant


def wrong_builds():
    with open(os.path.join(HERE, "second.cpp")) as file:
        source = file.read()
    seen, keys, out = {source}, {}, []
    for mutant in [*by_hands(source), *by_rules(source)]:
        if mutant.text in seen:
            continue
        seen.add(mutant.text)
        keys[mutant.key] = keys.get(mutant.key, 0) + 1
        if keys[mutant.key] > 1:
            mutant.key += f" #{keys[mutant.key]}"
        out.append(mutant)
    return source, out


# ---- playing

def lines_of(name):
    with open(name) as file:
        return file.read().splitlines()


class Pack:
    def __init__(self):
        self.lists = sorted(name[:-6] for name in os.listdir(PACK) if name.endswith(".calls"))
        # what reserved numbers do is no part of conformance, but a wrong build may be wrong in nothing else
        self.lists += sorted("reserved/" + name[:-6] for name in os.listdir(os.path.join(PACK, "reserved")) if name.endswith(".calls"))
        self.paths = [os.path.join(PACK, name + ".calls") for name in self.lists]
        self.due, self.places = [], []
        digest = hashlib.sha256(COMPILER.encode())
        for name in self.lists:
            answers = lines_of(os.path.join(PACK, name + ".answers"))
            self.due += answers
            self.places += [(name, i + 1) for i in range(len(answers))]
            digest.update("\n".join([name, *lines_of(os.path.join(PACK, name + ".calls")), *answers]).encode())
        self.digest, self.known, self.sheet, self.numbers = digest.hexdigest(), {}, "", {}
        if os.path.exists(KNOWN):
            with open(KNOWN) as file:
                known = json.load(file)
            if known["pack"] == self.digest:
                self.known = known["outcomes"]

    def keep(self):
        with open(KNOWN + ".new", "w") as file:
            json.dump({"pack": self.digest, "outcomes": dict(self.known)}, file)
        os.replace(KNOWN + ".new", KNOWN)

    def differing(self, told):
        """The places that differ, three at most; of deepest those that its judge finds wrong."""
        places, deepest = [], False
        for place, due, answer in zip(self.places, self.due, told + [None] * (len(self.due) - len(told))):
            if due != answer:
                if place[0] == "deepest":
                    deepest = True
                    continue
                places.append(place)
                if len(places) == 3:
                    return places
        if deepest:
            own = [told[i] for i, place in enumerate(self.places) if place[0] == "deepest" and i < len(told)]
            judged = subprocess.run([sys.executable, os.path.join(PACK, "deepest.py")], input="\n".join(own) + "\n", capture_output=True, text=True)
            places += [("deepest", int(n)) for n in re.findall(r"^line (\d+),", judged.stdout, re.M)]
        return places[:3]


# ---- one program with many wrong builds

STATEMENT = re.compile(r"\s*(if \(.*\) [^{]*;|if \(.*\) return .*;|(while|for) \(.*\) [^{]*;|return\b.*;|[\w.\[\]()*/ ]+ (=|\+=|-=) .*;|"
                       r"[\w.\[\]()]+\(.*\);|\w+(\[\w+\])?\+\+;)$")
DECLARATION = re.compile(r"(\s*)(const Number|Number|Runs|bool|size_t|Count|unsigned char|Range|Bytes|Answer|Run|Part|Place|Rect|string|Operation) "
                         r"(\w+) = (.*);$")
CONDITION = re.compile(r"(\s*(?:\} else )?if \()(.*)(\) \{)$")


def sheet_of(source, mutants):
    """A program that is the wrong build whose number WRONG says, and the right one without: as text, and which wrong build is at which of its lines."""
    lines = source.split("\n")
    by_line = {}
    for number, mutant in mutants.items():
        by_line.setdefault(mutant.line, []).append((number, mutant.instead))
    out, owner = ["#include <cstdlib>", 'static const int build_number = std::getenv("WRONG") ? std::atoi(std::getenv("WRONG")) : 0;'], {}

    def emit(text, number=0):
        for row in text.split("\n"):
            out.append(row)
            owner[len(out)] = number

    for i, line in enumerate(lines):
        if i not in by_line:
            emit(line)
            continue
        kind, own = kind_of(line)
        if kind == "statement":
            for number, text in by_line[i]:
                emit(f"if (build_number == {number}) {{")
                emit(text, number)
                emit("} else")
            emit("{\n" + line + "\n}")
            continue
        before, after = (f"{own[1]}{own[2]} {own[3]} = ", ";") if kind == "declaration" else (own[1], own[3])
        place = 4 if kind == "declaration" else 2
        capture = "" if line.startswith("const") else "&"
        emit(before + f"[{capture}]() -> {own[2] if kind == 'declaration' else 'bool'} {{")
        for number, text in by_line[i]:
            emit(f"if (build_number == {number})")
            emit(f"return {kind_of(text)[1][place]};", number)
        emit(f"return {own[place]}; }}()" + after)
    return "\n".join(out) + "\n", owner


def kind_of(line):
    line = code(line)
    declared = DECLARATION.match(line)
    if declared:
        return "declaration", declared
    condition = CONDITION.match(line)
    if condition:
        return "condition", condition
    other_declaration = re.match(r"\s*(?!return )(const )?[\w:<>]+ [&*]?\w+( = .*|\(.*\))?;$", line)
    return ("statement", None) if STATEMENT.match(line) and not other_declaration else (None, None)


def fits_sheet(mutant, lines):
    """Whether a choice between the line and what stands for it can be made where the line is."""
    if mutant.line is None:
        return False
    kind, own = kind_of(lines[mutant.line])
    if kind == "statement":
        return kind_of(mutant.instead.split("\n")[0])[0] in ("statement", None)
    other, its = kind_of(mutant.instead)
    if kind is None or other != kind:
        return False
    return own[2] == its[2] and own[3] == its[3] if kind == "declaration" else own[1] == its[1] and own[3] == its[3]


def build_sheet(source, mutants):
    """The program of all wrong builds that can be made so, and the number of each in it; those that do not compile have None."""
    lines = source.split("\n")
    numbered = {i + 1: m for i, m in enumerate(m for m in mutants if fits_sheet(m, lines))}
    numbers, program = {}, os.path.join(WORK, f"sheet-{os.getpid()}")
    while True:
        text, owner = sheet_of(source, numbered)
        with open(program + ".cpp", "w") as file:
            file.write(text)
        every = "-ferror-limit=0" if "clang" in COMPILER else "-fmax-errors=0"
        built = subprocess.run(["nice", "-n", "5", COMPILER, "-std=c++17", "-O1", "-w", every, "-o", program, program + ".cpp"], capture_output=True, text=True)
        if built.returncode == 0:
            break
        bad = {owner.get(int(n), 0) for n in re.findall(r"^\S+\.cpp:(\d+):\d+: error", built.stderr, re.M)} - {0}
        if not bad:
            sys.exit("the program of all wrong builds does not compile:\n" + built.stderr[:2000])
        for number in bad:
            numbers[numbered.pop(number).name] = None
    atexit.register(lambda: [os.remove(program + end) for end in ("", ".cpp")])
    numbers.update({m.name: number for number, m in numbered.items()})
    return program, numbers


def build(mutant, program):
    """Without optimization: building takes most of the time, and playing a tenth of a second."""
    with open(program + ".cpp", "w") as file:
        file.write(mutant.text)
    flags = ["-include-pch", HEADERS + ".pch"] if "clang" in COMPILER else ["-include", HEADERS]
    built = subprocess.run(["nice", "-n", "5", COMPILER, "-std=c++17", "-O0", "-w", *flags, "-o", program, program + ".cpp"], capture_output=True)
    os.remove(program + ".cpp")
    return built.returncode == 0


def outcome(mutant, pack):
    """None where it does not compile; else whether it stopped or did not end, and where it differs."""
    if mutant.name in pack.known:
        return pack.known[mutant.name]
    program = os.path.join(WORK, f"{mutant.name}-{os.getpid()}")
    played, number = program, pack.numbers.get(mutant.name, 0)
    if number:
        played = pack.sheet
    elif number is None or not build(mutant, program):
        pack.known[mutant.name] = None
        return None
    with open(program + ".out", "w+b") as file:
        command = f"ulimit -v 4000000; ulimit -f 100000; ulimit -t {SECONDS}; WRONG={number} exec nice -n 5 {played} " + " ".join(pack.paths)
        try:
            stopped = subprocess.run(["bash", "-c", command], stdout=file, stderr=subprocess.DEVNULL, timeout=20 * SECONDS).returncode != 0
        except subprocess.TimeoutExpired:
            stopped = True
        file.seek(0)
        told = file.read(1 << 26).decode(errors="replace").splitlines()
    os.remove(program + ".out")
    if not number:
        os.remove(program)
    pack.known[mutant.name] = stopped, pack.differing(told)
    return pack.known[mutant.name]


def headers():
    """The headers, compiled once for all."""
    os.makedirs(WORK, exist_ok=True)
    made = HEADERS + (".pch" if "clang" in COMPILER else ".gch")
    with open(HEADERS, "w") as file:
        file.write("#include <cstdint>\n#include <cstdio>\n#include <string>\n#include <vector>\n")
    subprocess.run([COMPILER, "-std=c++17", "-O0", "-w", "-x", "c++-header", HEADERS, "-o", made], check=True)
    atexit.register(lambda: [os.remove(name) for name in (HEADERS, made)])


def equivalents():
    """What equivalent.txt says of a wrong build: a line with its name, then one with the reason, which begins with two blanks."""
    out, key = {}, None
    for line in lines_of(os.path.join(HERE, "equivalent.txt")):
        if line.startswith("  "):
            out[key] = line.strip()
        elif line and not line.startswith("#"):
            key = line
    return out


def table(title, groups):
    print(f"\n| {title} | wrong builds | 3 lines or more | 2 | 1 | none | equivalent | of them stopped |\n|---|---|---|---|---|---|---|---|")
    for name, rows in groups:
        if not rows:
            continue

        def count(*kinds):
            return sum(row["caught"] in kinds for row in rows)
        print(f"| {name} | {len(rows)} | {count(3)} | {count(2)} | {count(1)} | {count(0)} | {count('equivalent')} | {sum(r['stopped'] for r in rows)} |")


def answers_of(program, path):
    try:
        return subprocess.run([program, path], capture_output=True, timeout=20 * SECONDS).stdout.decode(errors="replace").splitlines()
    except subprocess.TimeoutExpired:
        return []


def units_of(calls):
    """The lines, a frame and its records together."""
    out = []
    for line in calls:
        if line.startswith("record "):
            out[-1].append(line)
        else:
            out.append([line])
    return out


def smallest(right, program, units):
    """The fewest of some lines, the last ones among them, to which the right build and a wrong one give other answers."""
    path = program + ".calls"

    def differs(some):
        with open(path, "w") as file:
            file.write("".join(line + "\n" for unit in some for line in unit))
        return answers_of(right, path) != answers_of(program, path)

    size = len(units) // 2
    while size > 0:
        at = 0
        while at < len(units) - 1:
            fewer = units[:at] + units[min(at + size, len(units) - 1):]
            if len(fewer) < len(units) and differs(fewer):
                units = fewer
            else:
                at += size
        size //= 2
    os.remove(path)
    return [line for unit in units for line in unit]


def weakness(mutant, right, path, calls, due):
    """Which lines of missing.calls a wrong build answers otherwise, with what, and the smallest list for the first of them."""
    program = os.path.join(WORK, f"{mutant.name}-{os.getpid()}")
    if not build(mutant, program):
        sys.exit(f"not built: {mutant.key}")
    told = answers_of(program, path)
    told += ["nothing"] * (len(due) - len(told))
    wrong = [i for i in range(len(due)) if told[i] != due[i]]
    least = []
    if wrong:
        end = wrong[0] + 1
        while end < len(calls) and calls[end].startswith("record "):
            end += 1
        least = smallest(right, program, units_of(calls[:end]))
    os.remove(program)
    return [(i, told[i]) for i in wrong], least


def missing(source, mutants, equal):
    """Which lines of missing.calls catch the wrong builds that the lists do not catch by two lines."""
    path, right = os.path.join(HERE, "missing.calls"), os.path.join(WORK, f"right-{os.getpid()}")
    build(Mutant("", "", "", "", source), right)
    calls, due = lines_of(path), answers_of(right, path)
    with open(os.path.join(WORK, "results.json")) as file:
        weak = {row["key"]: row for row in json.load(file) if row["caught"] in (0, 1) and not row["stopped"] and row["key"] not in equal}
    left, out = 0, ["Which wrong builds the lines of missing.calls are for: by which line of the lists each is caught, if by any, and which lines of",
                    "missing.calls it answers otherwise, three at most; then the smallest list that tells it from the right one.", ""]
    chosen = [m for m in mutants if m.key in weak]
    with concurrent.futures.ThreadPoolExecutor(2) as pool:
        for mutant, (wrong, least) in zip(chosen, pool.map(lambda m: weakness(m, right, path, calls, due), chosen)):
            row = weak[mutant.key]
            lists = ", ".join(f"{name} line {line}" for name, line in row["places"]) or "none"
            out.append(f"{mutant.key}\n  in the lists: {lists}")
            out += [f"  line {i + 1}, {calls[i]}: due {due[i]}, told {told}" for i, told in wrong[:3]]
            out += ["  the smallest list:", *(f"    {line}" for line in least)]
            if row["caught"] + len(wrong) < 2:
                left += 1
                print(f"caught by {row['caught'] + len(wrong)}: {mutant.key}")
    os.remove(right)
    with open(os.path.join(HERE, "missing.txt"), "w") as file:
        file.write("\n".join(out) + "\n")
    print(f"{len(chosen)} wrong builds, {left} of them not caught by two lines with missing.calls")
    return 1 if left else 0


def main():
    parser = argparse.ArgumentParser()
    parser.add_argument("--sample", type=int, default=0)
    parser.add_argument("--count", action="store_true", help="only tell how many there are by rule")
    parser.add_argument("--match", default="", help="only those whose name has this")
    parser.add_argument("--missing", action="store_true", help="play missing.calls with those that the last run found weak, and write missing.txt")
    asked = parser.parse_args()
    source, mutants = wrong_builds()
    equal = equivalents()
    keys = {m.key for m in mutants}
    strays = [key for key in equal if key not in keys]
    for key in strays:
        print(f"equivalent.txt names no wrong build: {key}")
    if asked.count:
        for rule in sorted({m.rule for m in mutants}):
            print(sum(m.rule == rule for m in mutants), rule)
        print(len(mutants))
        return 0
    if asked.match:
        mutants = [m for m in mutants if asked.match in m.key]
    if asked.sample:
        named = set(lines_of(os.path.join(HERE, "missing.txt")))
        mutants = sorted((m for m in mutants if m.key not in equal and m.key not in named), key=lambda m: zlib.crc32(m.key.encode()))[:asked.sample]
    headers()
    if asked.missing:
        return missing(source, mutants, equal)
    pack = Pack()
    if asked.sample:
        pack.known = {}
    right = Mutant("", "", "", "", source)
    if list(outcome(right, pack) or ()) != [False, []]:
        sys.exit("second.cpp itself does not give the lists their answers")
    pack.sheet, pack.numbers = build_sheet(source, [m for m in mutants if m.name not in pack.known])
    alone = sum(m.name not in pack.numbers and m.name not in pack.known for m in mutants)
    print(f"{len(pack.numbers)} wrong builds in one program, {alone} built alone", file=sys.stderr, flush=True)
    rows = []
    with concurrent.futures.ThreadPoolExecutor(2) as pool:
        for mutant, told in zip(mutants, pool.map(lambda m: outcome(m, pack), mutants)):
            if told is None:
                continue
            stopped, places = told
            caught = len(places)
            if mutant.key in equal:
                if caught:
                    print(f"equivalent.txt names it, but it is caught: {mutant.key}")
                    strays.append(mutant.key)
                else:
                    caught = "equivalent"
            rows.append({"key": mutant.key, "rule": mutant.rule, "calls": mutant.calls, "refusals": mutant.refusals, "stopped": stopped, "caught": caught,
                         "places": places})
            if len(rows) % 50 == 0:
                print(f"{len(rows)} played", file=sys.stderr, flush=True)
                pack.keep()
    if not asked.sample:
        pack.keep()
        with open(os.path.join(WORK, "results.json"), "w") as file:
            json.dump(rows, file, indent=1)
        table("by rule", [(rule, [r for r in rows if r["rule"] == rule]) for rule in sorted({r["rule"] for r in rows})] + [("all", rows)])
        table("by call", [(name, [r for r in rows if name in r["calls"]]) for name in NAMES] + [("what calls share", [r for r in rows if not r["calls"]])])
        table("by refusal", [(n, [r for r in rows if n in r["refusals"]]) for n in range(1, 17)])
        print()
    # a wrong build that stops or does not end is noticed, whatever lines it has given before
    weak = [r for r in rows if r["caught"] in (0, 1) and not r["stopped"]]
    for row in weak:
        print(f"caught by {row['caught']} {row['places']}: [{row['rule']}] {row['key']}")
    equal_rows = sum(r["caught"] == "equivalent" for r in rows)
    print(f"{len(rows)} wrong builds, {len(rows) - equal_rows} of them to be caught, {len(weak)} not caught by two lines")
    return 1 if weak or strays else 0


if __name__ == "__main__":
    sys.exit(main())
