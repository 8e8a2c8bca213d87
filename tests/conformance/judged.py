#!/usr/bin/env python3
"""Gives the judge of the pack, conformance/judge.py, programs that answer wrongly in one thing, and looks at what it prints of them."""

import os
import subprocess
import sys

HERE = os.path.dirname(os.path.abspath(__file__))
JUDGE = os.path.join(HERE, "../../conformance/judge.py")
failed = 0


def wrong(right, other):
    return [sys.executable, os.path.join(HERE, "wrong.py"), right, other]


def judged(what, status, due, *words):
    """Runs the judge: it has to end so, and to print each of these in its order."""
    global failed
    run = subprocess.run([sys.executable, JUDGE, *words], capture_output=True, text=True)
    rest, missing = run.stdout, []
    for text in due:
        _, there, rest = rest.partition(text)
        missing += [] if there else [text]
    if run.returncode != status or missing:
        failed += 1
        print(f"the judge on {what}: exit status {run.returncode}, without {missing}", run.stdout, run.stderr, sep="\n")


example = [sys.executable, os.path.join(HERE, "../../conformance/example.py")]
judged("right answers", 0, ["pack 2", "1 of 1 lists, 95 lines, 0 differences"], "--list", "cases", *example)
judged(
    "a wrong count",
    1,
    [
        "cases, line 5: set 0/0 i2 e4 1\n    due:  number 0\n    told: number 9\n",
        "    0/0: capacity 8, floor 0, ceiling 8, runs 2: 2..3 6..7\n        since line 4: set 0/0 i4 e6 0\n",
        "95 lines",
    ],
    "--list", "cases", *wrong("number 0", "number 9"),
)
judged(
    "three differences, of which two are asked for",
    1,
    ["refusals, line ", "refusals, line ", "stopped: there may be more", "1 of 1 lists, 1821 lines, 2 differences"],
    "--stop", "2", "--list", "refusals", *wrong("refused 8", "done"),
)
judged("a record of a frame", 1, ["frames, line ", "record ", "told: -\n", "0/1: capacity 4, floor 0, ceiling 4"], "--list", "frames", *wrong("record 0 0 1 0 0 0 0 0", "-"))
judged("another list for a height", 1, ["deepest, line ", "why:  the list has to have"], "--list", "deepest", *wrong("worded 2 0 0", "worded 0 0 0"))
judged("every world", 0, ["cases, line 3: set 0/0 i2 e8 1\n    0/0: capacity 8, floor 0, ceiling 8, runs 1: 2..7\n"], "--show-worlds", "--list", "cases", *example)
judged("no answers", 1, ["told: (nothing)", "10 differences"], sys.executable, "-c", "")
judged("a program that is not there", 1, ["pack 2"], "./no-such-program")
judged("a list that is not there", 2, ["0 of 0 lists"], "--list", "none", *example)
judged("no program", 2, [], "--stop", "3")
if failed == 0:
    print("the judge tells differences as they are")
sys.exit(failed > 0)
