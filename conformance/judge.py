#!/usr/bin/env python3
# SPDX-License-Identifier: CC0-1.0
"""Plays the lists of the pack with a program and compares its answers, as README.md says.

usage: judge.py [--stop N] [--show-worlds] [--list NAME].. [--small | --large | --reserved] PROGRAM ARGS..

--stop N       stops after N differences (default 10)
--show-worlds  prints, after every line that changes something, the worlds of the stores that it changes
--list NAME    plays that list alone, or those
--small        leaves out the lists of large/; --large plays these alone
--reserved     plays the lists of reserved/ alone, which are no part of conformance

The exit status is 0 if there is no difference, 1 if there is one, and 2 if nothing was compared."""

import os
import re
import subprocess
import sys

sys.dont_write_bytecode = True  # nothing is left in this folder
import deepest
import example

HERE = os.path.dirname(os.path.abspath(__file__))
RUNS_SHOWN = 64
LINE_SHOWN = 4096


def lines_of(path):
    with open(path) as file:
        return file.read().splitlines()


def brief(line):
    """An answer, or how it begins where it is a long list for a height."""
    return line if len(line) <= LINE_SHOWN else f"{line[:LINE_SHOWN]} .. ({len(line)} bytes)"


def the_lists(folders, names):
    """The lists of the folders, each its name and the path of its calls, without their ending."""
    found = []
    for folder in folders:
        for file in sorted(os.listdir(os.path.join(HERE, folder))):
            name, ending = os.path.splitext(os.path.join(folder, file))
            if ending == ".calls" and (not names or name in names or os.path.basename(name) in names):
                found.append((name, os.path.join(HERE, name)))
    return found


class State:
    """What the stores are by the judge's own reader, and the last change of each store and world: line and call."""

    def __init__(self, calls):
        self.stores = [example.Store() for _ in range(4)]
        self.answers = example.answers(iter(calls), self.stores)
        self.changes = {}
        self.frame = 0  # the store of the frame that was begun last

    def looks(self):
        return [(store.capacity, store.worlds, [world.runs for world in store.worlds or []]) for store in self.stores]

    def step(self, number, call):
        """Makes the next call, and tells the stores that it changed."""
        before = self.looks()
        next(self.answers)
        changed = []
        for at, (old, new) in enumerate(zip(before, self.looks())):
            made = old[1] is not new[1] or old[0] != new[0]
            worlds = [i for i, runs in enumerate(new[2]) if made or runs is not old[2][i] and runs != old[2][i]]
            if made:
                self.changes = {key: change for key, change in self.changes.items() if key[0] != at}
                self.changes[at, None] = number, call
            for world in worlds:
                self.changes[at, world] = number, call
            if made or worlds:
                changed.append(at)
        if call.startswith("frame "):
            self.frame = int(call.split()[1])
        return changed

    def named(self, call):
        """The places that a call names, each a store and a world; of a call on a store all its worlds."""
        name, *words = call.split()
        if name == "record":
            return [(self.frame, int(words[7]))]
        if name in ("words", "spoil", "new", "deepest", "why_full", "frame"):
            at = int(words[0])
            return [(at, world) for world in range(len(self.stores[at].worlds or []))] or [(at, 0)]
        places = [tuple(map(int, word.split("/"))) for word in words if re.fullmatch(r"\d+/\d+", word)]
        return list(dict.fromkeys(places))

    def told(self, at, world):
        """A place as it stands: what it is, and the line that made it so."""
        store = self.stores[at]
        begin = f"{at}/{world}: "
        if not store.capacity:
            what, key = "the store has no capacity", (at, None)
        elif store.worlds is None:
            what, key = f"the store, of capacity {store.capacity}, is not sound", (at, None)
        elif world >= len(store.worlds):
            what, key = f"not opened; the store, of capacity {store.capacity}, has {len(store.worlds)} worlds", (at, None)
        else:
            one = store.worlds[world]
            runs = " ".join(f"{start}..{end}" for start, end in one.runs[:RUNS_SHOWN]) + " .." * (len(one.runs) > RUNS_SHOWN)
            what = f"capacity {store.capacity}, floor {one.floor}, ceiling {one.ceiling}, runs {len(one.runs)}" + ": " * bool(runs) + runs
            key = at, world
        if key not in self.changes:
            return begin + what + "; never changed"
        number, call = self.changes[key]
        return f"{begin}{what}\n        since line {number}: {call}"


def difference(name, call, due, told, lists):
    """What is wrong with an answer, if anything is. Any shortest list for a height will do."""
    if told is None:
        return "there is no answer"
    if os.path.basename(name) != "deepest":
        return None if told == due else ""
    try:
        deepest.judge(call, due, told, lists)
    except deepest.Wrong as why:
        return str(why)
    return None


def compare(name, calls, dues, given, options):
    """Prints the differences of a list, no more than are left, and tells how many there are and how many lines were compared."""
    given, found, lists = given[:] + [None] * (len(calls) - len(given)), {}, {}
    for number, (call, due, told) in enumerate(zip(calls, dues, given), 1):
        why = difference(name, call, due, told, lists)
        if why is not None:
            found[number] = why
            if len(found) == options["left"]:
                break
    # The judge's own reader goes as far as there is something to tell.
    state = State(calls) if found or options["show"] else None
    for number, call in enumerate(calls if options["show"] else calls[: max(found, default=0)], 1):
        if number in found:
            due, told = dues[number - 1], given[number - 1]
            print(f"{name}, line {number}: {call}")
            print(f"    due:  {brief(due)}\n    told: {brief(told) if told is not None else '(nothing)'}" + f"\n    why:  {found[number]}" * bool(found[number]))
            for place in state.named(call):
                print(f"    {state.told(*place)}")
        changed = state.step(number, call)
        if options["show"]:
            for at in changed:
                print(f"{name}, line {number}: {call}")
                for world in range(len(state.stores[at].worlds or [None])):
                    print(f"    {state.told(at, world)}")
    if len(given) > len(calls) and len(found) < options["left"]:
        print(f"{name}: there are {len(given)} answers to {len(calls)} calls")
        found[len(given)] = "too many"
    options["left"] -= len(found)
    return len(found)


def usage():
    print(__doc__, file=sys.stderr)
    sys.exit(2)


def arguments(words):
    options, names, folders = {"left": 10, "show": False}, [], ["", "large"]
    kinds = {"--small": [""], "--large": ["large"], "--reserved": ["reserved"]}
    while words and words[0].startswith("--"):
        word = words.pop(0)
        if word == "--show-worlds":
            options["show"] = True
        elif word in kinds:
            folders = kinds[word]
        elif word in ("--stop", "--list") and words:
            value = words.pop(0)
            if word == "--list":
                names.append(value)
            elif value.isdecimal() and int(value) > 0:
                options["left"] = int(value)
            else:
                usage()
        else:
            usage()
    if not words:
        usage()
    return options, names, folders, words


def main():
    options, names, folders, program = arguments(sys.argv[1:])
    with open(os.path.join(HERE, "VERSION")) as file:
        print(file.read().strip())
    played = lines = differences = 0
    everything = the_lists([folder for folder in folders if os.path.isdir(os.path.join(HERE, folder))], names)
    for name, path in everything:
        with open(path + ".calls", "rb") as calls:
            try:
                run = subprocess.run(program, stdin=calls, stdout=subprocess.PIPE)
            except OSError as why:
                sys.exit(f"{program[0]}: {why.strerror}")
        calls, dues = lines_of(path + ".calls"), lines_of(path + ".answers")
        differences += compare(name, calls, dues, run.stdout.decode(errors="replace").splitlines(), options)
        if run.returncode != 0:
            print(f"{name}: the program ended with exit status {run.returncode}")
        played, lines = played + 1, lines + len(calls)
        if options["left"] == 0:
            print("stopped: there may be more")
            break
    print(f"{played} of {len(everything)} lists, {lines} lines, {differences} differences")
    return 2 if played == 0 else 1 if differences else 0


if __name__ == "__main__":
    sys.exit(main())
