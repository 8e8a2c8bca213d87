#!/usr/bin/env python3
"""Counts the places in crates/*/src that the eight points of the design pass (docs/DESIGN-PASS.md) ask about.

usage: python3 tools/places.py [POINT] [--list] [--at COMMIT]     at the top of the repository

Without POINT it goes over all of 1 to 8; --list prints each place as file:line and a name; --at reads the files of a commit, so that a count can be
repeated. A place is found by its shape. What shape cannot tell is kept by hand, and counts as long as its function or type is there.
A place found is not a fault: some of them have to stay.
"""
import io
import re
import subprocess
import sys
import tarfile
from collections import defaultdict
from difflib import SequenceMatcher
from pathlib import Path

# Places that shape cannot tell: a line for each kind of them, with its heading and the names; of point 2 each line is a group.
BY_HAND = [line for line in Path(__file__).with_name("places.txt").read_text(encoding="utf-8").splitlines() if line and line[0] != "#"]
PLAIN_FLAGS = {"Listing.value", "Change.value", "Flag.value", "Group.sole", "Rank.held", "Source.last"}  # bool fields that are values of their own
# bools and enums that these take tell a value, and switch no step
NO_SWITCHES = set("bit bit_of flag alike completed version_of other_edition view_of whole_byte others follows".split())
KINDS = {"refusal", "kind", "call", "op", "edition", "found"}  # names of numbers that stand for a kind, a refusal or a truth value
LACKS = {"Nowhere", "None", "Full", "Wrong", "Failed", "Refused", "End"}  # names of variants that say there is no value
MIRRORS = "first last,left right,next previous,low high,before after,up down,front back,on past,one zero,start end,column row,plus minus"
PAIRS = "line at,line n,path depth,found k,runs n,calls n,limits n,lengths s".replace(" ", " and ").split(",")  # slices, and what stands beside
KEYWORDS = set("if else match while for in let mut return loop break continue as".split())
TOKEN = re.compile(r"[A-Za-z_]\w*(?:::[A-Za-z_]\w*)*|\d\w*|b?'(?:\\.|[^'])'|b?\"\s*\"|[<>=!+*/%|&^-]=|&&|\|\||=>|<<|>>|\.\.=?|[^\s\w]")
NUMBER = r"(?:u8|u16|u32|u64|usize|u128)"

def sources(commit):
    """path -> text of every source and proof file, of the working tree or of a commit"""
    wanted = re.compile(r"crates/[^/]+/(src/.*\.rt|proofs/.*\.antt)$")
    if not commit:
        return {str(p): p.read_text(encoding="utf-8") for p in sorted(Path("crates").rglob("*")) if wanted.match(str(p)) and p.is_file()}
    tar = tarfile.open(fileobj=io.BytesIO(subprocess.run(["git", "archive", commit, "crates"], check=True, stdout=subprocess.PIPE).stdout))
    return {m.name: tar.extractfile(m).read().decode("utf-8") for m in sorted(tar, key=lambda m: m.name) if wanted.match(m.name)}

def closing(text, i):
    """the index behind the bracket that closes the one at i"""
    deep = 0
    for j in range(i, len(text)):
        deep += (text[j] in "({[") - (text[j] in ")}]")
        if deep == 0:
            return j + 1
    raise ValueError("a bracket is not closed")

def split(text, mark=","):
    """the parts of a list, at the marks outside of brackets"""
    parts, deep = [""], 0
    for c in text:
        deep += (c in "({[") - (c in ")}]")
        parts[-1] += c if c != mark or deep else ""
        parts += [""] if c == mark and deep == 0 else []
    return [p.strip() for p in parts if p.strip()]

class Item:
    """a function, struct, enum or constant"""

    def __init__(self, kind, path, text, at, name):
        self.kind, self.path, self.name, self.line, self.fields = kind, path, name, text.count("\n", 0, at) + 1, []
        crate, stem = path.split("/")[1], Path(path).stem
        self.module = crate if stem == "lib" or (stem == "main" and crate != "replay") else f"{crate}::{stem}"
        self.full = f"{self.module}::{name}"
        if text[at] == "<":  # the parameters of a type are passed over; an arrow closes none
            at += next(n for n, c in enumerate(text[at:], 1) if (head := text[at:at + n].replace("->", "")).count("<") == head.count(">"))
        i = re.compile(r"[({;=]").search(text, at).start()
        if kind == "const" or text[i] == ";":
            return
        j = closing(text, i)
        for part in split(re.sub(r"\s+", " ", text[i + 1:j - 1])):
            m = re.match(r"(?:pub |mut )*(\w+): (.*)", part)
            self.fields.append((m[1], m[2]) if m else ("", part))
        if kind == "fn":
            self.facts, self.body, self.start = [], "", 0
            while not re.compile(r"(?:[^{;\[]|\[[^\]]*\])*;").match(text, j):  # the clauses of the contract, then the body, if there is one
                m = re.compile(r"[^{]*?(?:\b(requires|ensures|decreases)\b[^{]*)?(?=\{)").match(text, j)
                i, j = m.end(), closing(text, m.end())
                if not m[1]:
                    self.body, self.start = text[i:j], text.count("\n", 0, i) + 1
                    break
                self.facts += [re.sub(r"\s+", " ", text[i + 1:j - 1]).strip()] if m[1] == "requires" else []
            self.tokens = TOKEN.findall(self.body)

    def at(self, offset):
        return self.start + self.body.count("\n", 0, offset)

def read(texts):
    """the items of all sources"""
    items = []
    for path, text in texts.items():
        if path.endswith(".rt"):
            # comments and the insides of strings become blanks, so that lines stay
            text = re.sub(r'"(?:[^"\\\n]|\\.)*"|//[^\n]*', lambda m: '"' + " " * (len(m[0]) - 2) + '"' if m[0][0] == '"' else "", text)
            for m in re.finditer(r"^ *(?:pub(?:\(\w+\))? )?(?:const (?=fn)|extern \"\s*\" )?(fn|struct|enum|const) (\w+)", text, re.M):
                items.append(Item(m[1], path, text, m.end(), m[2]))
    return items

def shape(tokens, lax=False):
    """a body with its names replaced in the order in which they appear, and its numbers by N; lax: all names alike, and comparisons, and signs"""
    seen, out = {}, []
    for t in tokens:
        if re.match(r"\d|b?'|true$|false$|[A-Z][A-Z_]+$", t) or t.endswith("::MAX"):
            out.append("N")
        elif re.match(r"[A-Za-z_]", t) and t not in KEYWORDS:
            out.append("x" if lax else "x%d" % seen.setdefault(t, len(seen)))
        else:
            out.append(re.sub("[<>]", "<", re.sub("[+-]", "+", t)) if lax and t not in ("=>", "<<", ">>") else t)
    # a list of plain arguments is one, however long it is
    return re.sub(r"\( (?:(?:x\d*|N|&|mut|\.) )+(?:, (?:(?:x\d*|N|&|mut|\.) )+)*(?:, )?\)", "( A )", " ".join(out))

def point1(fns, types, add):
    """own enums for Option and Result, flags and numbers for kinds"""
    for t in types:
        if t.kind == "enum":
            full = [v for _, v in t.fields]
            if {re.match(r"\w+", v)[0] for v in full} & LACKS and len(full) == (3 if "Refused" in str(full) and len(full) > 2 else 2):
                add("1a enum like Option or Result", t, t.line)
    for t in fns + types:
        for name, kind in t.fields:
            if t.kind == "struct" and kind == "bool" and len(t.fields) > 1 and f"{t.name}.{name}" not in PLAIN_FLAGS:
                add("1b flag or sentinel, a bool field", t, t.line, "." + name)
            if name in KINDS and re.fullmatch(NUMBER, kind):
                add("1c number for a kind or a refusal", t, t.line, f".{name}")

def point2(fns, types, add):
    """functions and types of one shape; mirror images: the names are mirrored, and half of the body at least is alike"""
    def groups(heading, keyed):
        by = defaultdict(list)
        for key, item in keyed:
            by[key].append(item)
        for k, items in enumerate([g for g in by.values() if len(g) > 1 and not (len(g) == 2 and tuple(g) in pairs)], 1):
            for t in items:
                add(heading, t, t.line, f" [group {k}]")
    pairs = set()
    for f in fns:
        swaps = [m.split() for m in MIRRORS.split(",")]
        mirrored = {re.sub(rf"(?<![a-z]){a}(?![a-z])", b, f.name) for x, y in swaps for a, b in ((x, y), (y, x))} - {f.name} | {f.name + "_back"}
        for g in fns:
            if g.module == f.module and f.line < g.line and g.name in mirrored:
                if SequenceMatcher(None, shape(f.tokens, True).split(), shape(g.tokens, True).split(), False).ratio() >= 0.5:
                    pairs.add((f, g))
                    add("2 mirror images", f, f.line, f" and {g.name}")
    groups("2 functions of one shape", [(shape(f.tokens), f) for f in fns if len(shape(f.tokens).split()) >= 18 and f.name[:5] != "case_"])
    payload = r"^\w+|(?<=\()(?!Refusal)\w+"
    enums = [t for t in types if t.kind == "enum" and "(" in str(t.fields[:3]) and len(t.fields) < 4]
    groups("2 enums of one shape", [(str(sorted(re.sub(payload, "T", v) for _, v in t.fields)), t) for t in enums])
    for t in types:
        def like(u):
            near = len(set(t.fields) & set(u.fields)) >= len(t.fields) - 1 and len(t.fields) == len(u.fields) > 1
            return t.kind == u.kind == "struct" and t is not u and (t.name == u.name or near and t.path.split("/")[1] == u.path.split("/")[1])
        if any(like(u) for u in types):
            add("2 structs alike but for a field, or of one name", t, t.line)

def point3(fns, types, add):
    """loops with an index that is changed by a constant"""
    for f in fns:
        for m in re.finditer(r"\b(?:while\b([^{]*)|for (\w+) in [^{]*\.\.[^{]*)\{", f.body):
            inside = f.body[m.end():closing(f.body, m.end() - 1)]
            steps = set(re.findall(r"\b(\w+) [+-]= \d+;", inside)) | {a for a, b in re.findall(r"\b(\w+) = (\w+) [+-] \d+;", inside) if a == b}
            if m[2] and m[2] != "_":
                add("3 for over an index", f, f.at(m.start()))
            elif steps:
                inside_it = steps & set(re.findall(r"\w+", m[1] or ""))
                add("3 index counted by hand" if inside_it else "3 counted beside the condition", f, f.at(m.start()))

def point4(fns, types, add):
    """what a derive, From, Default, Display or a method of a number would do"""
    for f in fns:
        plain = " ".join(f.tokens)
        simple = r"[\w:]+(?: \( [\w, ]+ \))?"
        row = r"\{ (?:if \w+ == [\w']+ \{ return %s ; \} )+%s \}$|\{ if \w+(?: <= \w+)? \{ [01] \} else \{ [01] \} \}$" % (simple, simple)
        arms = re.match(r"\{ match [\w:]+ (?:\( [\w, ]+ \) )?\{ (.*) \} \}$", plain)
        literal = re.match(r"\{ [\w:]+ \{ (.*) \} \}$", plain)
        taken = set(re.findall(r": (?:[\w:]+ \( )?(\w+) \. \w+", literal[1])) if literal else set()
        told = arms and not re.search(r"[;!]|match", arms[1]) or re.match(row, plain) or len(taken) == 1 and taken <= {n for n, _ in f.fields}
        convert = told and len(f.fields) <= 2 and "Print" not in str(f.fields)
        if convert:
            add("4 conversion", f, f.line)
        if len(re.findall(r"if \w+ \. \w+ != [^{]* \{ return false ; \}", plain)) >= 3:
            add("4 equality by hand", f, f.line)
        for m in re.finditer(r"\b([A-Z]\w*) \{", f.body):
            inner = split(f.body[m.end():closing(f.body, m.end() - 1) - 1])
            values = [re.split(r"\s*:\s*", p, maxsplit=1) for p in inner if re.match(r"\w+\s*:[^:]", p)]
            copied = [v.split(".")[0] for n, v in values if re.fullmatch(r"\w+\." + n, v)]
            if copied and max(map(copied.count, copied)) >= 3 and not convert:
                add("4 fields copied one by one", f, f.at(m.start()), f" {m[1]}")
            if sum(v in ("0", "false") for _, v in values) >= 3:
                add("4 zeros by hand", f, f.at(m.start()), f" {m[1]}")
            for name in [n for n, v in values if n == v]:
                add("4 field: field", f, f.at(m.start()), f" {m[1]}.{name}")
        for m in re.finditer(r"if (\w+(?:\.\w+)?) <=? (\w+(?:\.\w+)?) \{ (\w+(?:\.\w+)?) \} else \{ (\w+(?:\.\w+)?)(?: - 1)? \}", f.body):
            if {m[1], m[2]} == {m[3], m[4]}:
                add("4 arithmetic by hand, min or max", f, f.at(m.start()))
        for m in re.finditer(r"num::wrapping_\w+", f.body):
            add("4 std::num::wrapping call", f, f.at(m.start()))
        if re.match(r"cases|replay::answer|listset", f.module) and len(f.fields) > 1 and f.name[:5] != "case_":
            if f.name[:4] == "put_" or "Print" in str(f.fields):
                add("4 printing by hand", f, f.line)

def point5(fns, types, add):
    """clauses that three contracts have, by their first word or as they stand, and parameters that three functions have"""
    facts, sets = defaultdict(list), {}

    def parts(text):
        text = text.strip()
        while text.startswith("(") and closing(text, 0) == len(text):
            text = text[1:-1].strip()
        pieces = split(text, "×")
        return [text] if len(pieces) == 1 else [q for p in pieces for q in parts(p)]
    for f in fns:
        for p in {p.split()[0] + " .." if p[0].isupper() else re.sub(r"\.(now|old)\b", "", p) for text in f.facts for p in parts(text)}:
            facts[p].append(f)
        sets[f] = frozenset((n, re.sub(r"&(?:'\w+ )?(?:mut )?", "&", t)) for n, t in f.fields if n and n != "rt")
    for p, where in sorted(facts.items(), key=lambda x: -len(x[1])):
        if len(where) >= 3:
            add("5 fact of three functions or more", where[0], where[0].line, f": {p} ({len(where)})")
    # the group that spares most parameters comes first, and its parameters are then taken out of their functions
    left = {f: set(sets[f]) for f in fns}
    while True:
        rest = {frozenset(w) for w in left.values()}
        many = defaultdict(int)
        for both in {a & b for a in rest for b in rest if len(a & b) > 1} | {a for a in rest if len(a) > 1}:
            many[both] = sum(both <= w for w in left.values())
        best = max((b for b in many if many[b] >= 3), key=lambda b: ((len(b) - 1) * many[b], sorted(b)), default=None)
        if best is None:
            return
        where = [f for f in fns if best <= sets[f]]
        names = ", ".join(f"{n}: {t}" for n, t in where[0].fields if n in dict(best))
        add("5 parameters together in three functions or more", where[0], where[0].line, f": {names} ({len(where)})")
        for f in fns:
            left[f] -= best if best <= left[f] else set()

def point6(fns, types, add):
    """slices and arrays with a count or an index beside them: the contract or an index says that it is one"""
    for f in fns:
        slices = [n for n, t in f.fields if re.match(r"&(?:'\w+ )?(?:mut )?\[", t)]
        numbers = [n for n, t in f.fields if re.fullmatch(NUMBER, t)]
        facts = " × ".join(f.facts)
        beside = [f"{s} and {n}" for s in slices for n in numbers if f"{s} and {n}" in PAIRS
                  or re.search(rf"\b{n}\b[^×()]* [≤<≡] [^×()]*length {s}\b|length {s}\.\w+ ≡ [^×]*\b{n}\b", facts)
                  or re.search(rf"\b{s}\[(?:[^\]]*[^\w\]])?{n}\b", f.body)]
        if beside:
            add("6 slice with a count or an index beside it", f, f.line, f" ({', '.join(beside)})")
        for m in re.finditer(r"= \[(?:0x)?\w+; [\w :+]+\]", f.body):
            add("6 fixed array", f, f.at(m.start()), m[0][1:])

def point7(fns, types, add):
    """parameters that only switch which step runs, and matches whose arms call a function each"""
    enums = {t.name for t in types if t.kind == "enum"}
    for f in fns:
        for name, kind in f.fields:
            if kind == "bool" and re.search(rf"(?:\bif |&& )!?{name}(?: &&| \{{)", f.body) and f.name not in NO_SWITCHES | {"join"}:
                add("7 bool that switches a step", f, f.line, f" ({name})")
            elif kind in enums and f"match {name} " in f.body and f.name not in NO_SWITCHES and not re.search("Refused|None|Nowhere", f.body):
                add("7 enum that switches a step", f, f.line, f" ({name})")
        for m in re.finditer(r"\bmatch [^{]*\{", f.body):
            inside = f.body[m.end():closing(f.body, m.end() - 1)]
            calls = set(re.findall(r"=> (?:return |Ok\(|flat::\w+\(\s*)?((?:\w+::)*[a-z]\w*)\(", inside))
            if len(calls) >= 3 and "Refused" not in inside:
                add("7 table of functions by match", f, f.at(m.start()), f" ({len(calls)} functions)")

def point8(texts, show):
    """answers and lemmas of each crate"""
    rows = defaultdict(lambda: [0, 0, 0])
    for path, text in texts.items():
        crate, name = path.split("/")[1], Path(path).name
        if path.endswith(".antt"):
            told = name in ("Answers.antt", "Invariants.antt")
            more = (1, len(re.findall(r"^(?:abbrev )?pub \S+ *:", text, re.M)) if name[0] == "A" else 0, 0) if told else (0, 0, text.count("\n"))
            rows[crate] = [a + b for a, b in zip(rows[crate], more)]
    lines = [(crate, *rows[crate]) for crate in sorted(rows)]
    for row in [("point 8", *map(sum, list(zip(*lines))[1:]))] + (lines if show else []):
        print("%s: %d files of answers and invariants, %d answers, %d lines of lemma files" % row)

def main():
    args = sys.argv[1:]
    commit = args[args.index("--at") + 1] if "--at" in args else ""
    beginning = commit and Path("docs/DESIGN-PASS.md").read_text(encoding="utf-8").startswith(commit)
    texts = sources(commit)
    items = read(texts)
    fns, types = [i for i in items if i.kind == "fn"], [i for i in items if i.kind in ("struct", "enum")]
    for p in [a for a in args if a in list("12345678")] or "12345678":
        heads, seen = defaultdict(list), set()

        def add(heading, item, line, more=""):
            heads[heading].append((item.path, line, item.full + more))
            seen.add(item)
        if p == "8":
            point8(texts, "--list" in args)
            continue
        (point1, point2, point3, point4, point5, point6, point7)[int(p) - 1](fns, types, add)
        shown = seen.copy() if p in "237" else set()  # what shape finds of these points is not counted again
        for k, line in enumerate(line for line in BY_HAND if line[0] == p):
            heading, names = line.split(": ", 1)
            kept = {(w.split()[0], n.rstrip("!")) for w in names.split(" / ") for n in w.split()[1:] if beginning or n[-1] != "!"}
            here = [i for i in items if (i.module, i.name) in kept and i not in shown]
            for i in here if p != "2" or len(here) > 1 else []:
                add(heading + (" of one kind, kept by hand" if p == "2" else ""), i, i.line, f" [group {k + 1}]" if p == "2" else "")
        print(f"point {p}: {sum(map(len, heads.values()))} places")
        for heading in sorted(heads):
            known = {m[0] for m in (re.search(r"\[group \d+\]", n) for _, _, n in heads[heading]) if m}
            print(f"  {heading}: {len(heads[heading])}" + (f" in {len(known)} groups" if known else ""))
            for place in heads[heading] if "--list" in args else []:
                print("    %s:%d %s" % place)

if __name__ == "__main__":
    main()
