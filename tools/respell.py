#!/usr/bin/env python3
"""Brings the repository's own definitions and lemmas to snake case: firstAllowed becomes first_allowed, restB-yes rest_b-yes.

usage: python3 tools/respell.py [--list]     at the top of the repository; --list prints the table and what falls together, and writes nothing

A name is respelled if it is defined in an .antt file of crates/ (a definition, a lemma, a constructor, a field, a parameter) and has a capital
inside a part that begins with a small letter. Names of the library (those with an underscore before the capital, as uint_Makes) stay, and so
do types. It goes over .rt and .antt files, must-fail edits, and the pages that name definitions (README.md, docs/).
"""
import os
import re
import sys

PART = re.compile(r"[a-z][a-z0-9]*[A-Z][A-Za-z0-9']*")
TOKEN = re.compile(r"(?<![\w'])[A-Za-z_\u0370-\u03ff\u25cc\u2080-\u2089][\w'\u2080-\u2089-]*")


# lemmas that would fall together with a definition of the same file, by the places where they stood when the names were respelled
CLASHES = [
    ("crates/promises/proofs/Meeting.antt", "fed_by"),
    ("crates/frame/proofs/", "no_room"),
    ("crates/interval_bit_set/proofs/Lending.antt", "past_first"),
    ("crates/laws/proofs/OtherWay.antt", "shift_runs"),
    ("crates/changes/proofs/Counting.antt", "runs_of"),
    ("crates/changes/proofs/Steps.antt", "runs_of"),
]


def snake(part):
    """firstAllowed -> first_allowed, restB -> rest_b"""
    return re.sub(r"(?<=[a-z0-9])([A-Z])", lambda m: "_" + m.group(1).lower(), part)


def respelled(token):
    if "_" in token and re.search(r"_[A-Z]", token):
        return token
    return "-".join(
        "_".join(snake(p) if PART.fullmatch(p) and len(p) > 2 else p for p in piece.split("_")) for piece in token.split("-")
    )


def files(top):
    for folder, dirs, names in os.walk(top):
        dirs[:] = sorted(d for d in dirs if d not in ("out", ".git", "target"))
        for n in sorted(names):
            yield os.path.join(folder, n)


def main():
    code, pages = [], []
    for p in files("crates"):
        if p.endswith((".rt", ".antt", ".edit")):
            code.append(p)
    pages = [p for p in files("docs") if p.endswith(".md")] + ["README.md"]
    texts = {p: open(p, encoding="utf-8").read() for p in code + pages}
    table, seen = {}, {}
    for p in code:
        for t in TOKEN.findall(texts[p]):
            seen.setdefault(t, set()).add(p)
            if t not in table and respelled(t) != t:
                table[t] = respelled(t)
    # what falls together: an old name and the new spelling of another in one file
    for old, new in sorted(table.items()):
        both = [p for p in seen.get(new, ()) if p in seen[old]]
        if new in seen:
            print(f"falls together: {old} -> {new}: {len(seen[old])} and {len(seen[new])} files, {len(both)} of both: {' '.join(sorted(both)[:3])}")
    by_new = {}
    for old, new in table.items():
        by_new.setdefault(new, []).append(old)
    for new, olds in by_new.items():
        if len(olds) > 1:
            print(f"two become one: {olds} -> {new}")
    print(f"{len(table)} names")
    if "--list" in sys.argv:
        for old, new in sorted(table.items()):
            print(f"{old} {new}")
        return
    for p, text in texts.items():
        if p in code:
            out = text
            for place, name in CLASHES:
                if p.startswith(place):
                    out = re.sub(r"(?<![\w'.-])" + name + r"(?![\w'-])", name + "_lem", out)
            out = TOKEN.sub(lambda m: table.get(m.group(0), m.group(0)), out)
        else:
            out = re.sub(r"`[^`\n]+`", lambda s: TOKEN.sub(lambda m: table.get(m.group(0), m.group(0)), s.group(0)), text)
        if out != text:
            open(p, "w", encoding="utf-8").write(out)


main()
