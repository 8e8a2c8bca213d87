#!/usr/bin/env python3
# SPDX-License-Identifier: CC0-1.0
"""Reads answers to deepest.calls on standard input and judges them as README.md says: which of the shortest lists is given is left open. Another list
may be named: deepest.py large/deepest."""

import os
import sys

LAST = 2**64 - 1
STALE = 0xEEEEEEEEEEEEEEEE  # what each word of a slice is before the call


class Wrong(Exception):
    pass


def require(condition, why):
    if not condition:
        raise Wrong(why)


# A balanced tree of runs: the heights of the two sides of every node differ by at most one.


class Node:
    def __init__(self, run):
        self.start, self.end = run
        self.left = self.right = None
        self.height = 1


def height(tree):
    return tree.height if tree else 0


def leaning(tree):
    return height(tree.left) - height(tree.right)


def measured(tree):
    tree.height = 1 + max(height(tree.left), height(tree.right))
    return tree


def turned_right(tree):
    top = tree.left
    tree.left = top.right
    top.right = measured(tree)
    return measured(top)


def turned_left(tree):
    top = tree.right
    tree.right = top.left
    top.left = measured(tree)
    return measured(top)


def balanced(tree):
    if leaning(tree) > 1:
        if leaning(tree.left) < 0:
            tree.left = turned_left(tree.left)
        return turned_right(tree)
    if leaning(tree) < -1:
        if leaning(tree.right) > 0:
            tree.right = turned_right(tree.right)
        return turned_left(tree)
    return measured(tree)


def grown(tree, run):
    """The tree with one run more. It touches none that is there: if it did, there would be fewer runs than any tree of the height has."""
    if tree is None:
        return Node(run)
    if run[1] + 1 < tree.start:
        tree.left = grown(tree.left, run)
    else:
        require(tree.end + 1 < run[0], f"the run {run[0]} .. {run[1]} touches {tree.start} .. {tree.end}")
        tree.right = grown(tree.right, run)
    return balanced(tree)


def judge(call, due, told, lists):
    """Compares an answer with ours. Of a list of runs its length has to be the same, and the height that it makes; lists has those so far, by height."""
    if not (call.startswith("deepest ") and due.startswith("worded ")):
        require(told == due, f"it has to be '{due}'")
        return
    asked, room = map(int, call.split()[2:])
    name, *words = told.split()
    require(name == "worded" and all(word.isdecimal() and int(word) <= LAST for word in words), "this is no list of words")
    count, *words = map(int, words)
    require(count == int(due.split()[1]), f"the list has to have {due.split()[1]} words")
    require(len(words) == room, f"the slice has {room} words")
    words, rest = words[:count], words[count:]
    require(all(word == STALE for word in rest), "the words after the list have to stay")
    if asked in lists:
        require(lists[asked] == words, f"an equal call, of height {asked}, got another list")
        return
    lists[asked] = words
    tree = None
    for run in zip(words[::2], words[1::2]):
        require(run[0] <= run[1], f"{run[0]} .. {run[1]} is no run")
        tree = grown(tree, run)
    require(height(tree) == asked, f"this makes a tree of height {height(tree)}")


def lines(name):
    with open(os.path.join(os.path.dirname(os.path.abspath(__file__)), name)) as file:
        return file.read().splitlines()


def main():
    name = sys.argv[1] if len(sys.argv) > 1 else "deepest"
    calls, answers, given = lines(name + ".calls"), lines(name + ".answers"), sys.stdin.read().splitlines()
    lists, wrong = {}, 0
    for number, (call, due) in enumerate(zip(calls, answers)):
        try:
            require(number < len(given), "there is no answer")
            judge(call, due, given[number], lists)
        except Wrong as why:
            wrong += 1
            print(f"line {number + 1}, {call}: {why}")
    if len(given) > len(calls):
        wrong += 1
        print("there are more answers than calls")
    print(f"{len(calls)} answers judged, {wrong} wrong")
    return wrong > 0


if __name__ == "__main__":
    sys.exit(main())
