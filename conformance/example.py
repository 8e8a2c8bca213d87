#!/usr/bin/env python3
# SPDX-License-Identifier: CC0-1.0
"""Reads a list of calls on standard input and prints the answers, as README.md says. A world's set is a plain list of runs."""

import bisect
import functools
import itertools
import re
import sys

# The sets: lists of runs (start, end), both held, in order and with a gap between any two.

LAST = 2**64 - 1
SIDE = 65536  # rows and columns of the plane of cells; the cell at a row and a column is row * SIDE + column
STALE = 0xEEEEEEEEEEEEEEEE  # what each word of a lent slice is
DIGITS = b"01" + bytes(254)  # of a byte that is 0 or 1 its digit


class Refused(Exception):
    pass


def require(condition, refusal):
    if not condition:
        raise Refused(refusal)


def held(runs, first, last):
    """The runs clipped to first .. last."""
    i, j = bisect.bisect_left(runs, (first,)), bisect.bisect_left(runs, (last + 1,))
    i -= i > 0 and runs[i - 1][1] >= first
    return [(max(s, first), min(e, last)) for s, e in runs[i:j]] if first <= last else []


def free(runs, first, last):
    """What is between them."""
    gaps = []
    for start, end in held(runs, first, last):
        if first < start:
            gaps.append((first, start - 1))
        first = end + 1
    return gaps + [(first, last)] if first <= last else gaps


def stretches(runs, first, last, value):
    return held(runs, first, last) if value else free(runs, first, last)


def size(runs):
    return sum(end - start + 1 for start, end in runs)


def union(pieces):
    runs = []
    for start, end in sorted(pieces):
        if runs and start <= runs[-1][1] + 1:
            runs[-1] = (runs[-1][0], max(end, runs[-1][1]))
        else:
            runs.append((start, end))
    return runs


def outside(runs, first, last):
    return held(runs, 0, first - 1) + held(runs, last + 1, LAST)


def moved(runs, distance, left):
    by = distance if left else -distance
    return held([(start + by, end + by) for start, end in runs], 0, LAST)


def without(a, b):
    return [piece for start, end in a for piece in free(b, start, end)]


def in_order(runs):
    rising = all(runs[i][1] + 2 <= runs[i + 1][0] for i in range(len(runs) - 1))
    return rising and all(start <= end for start, end in runs)


def between(lower, x, upper, y):
    """The first and the last position between two bounds by their kinds and values: of another kind than 1, 2 and 3 there are none."""
    if not {lower, upper} <= {1, 2, 3}:
        return 0, -1
    return 0 if lower == 3 else x + (lower == 2), LAST if upper == 3 else y - (upper == 2)


def window(base, length):
    require(1 <= length <= 524288 and base + length <= 2**64, 6)
    return base, base + length - 1


class Store:
    capacity = 0  # none
    worlds = None  # not sound

    def words(self, capacity):
        self.capacity, self.worlds = capacity if capacity <= SIDE else 0, None

    def spoil(self):
        self.worlds = None

    def new(self, limits):
        require(self.capacity, 1)
        fit = all(floor <= ceiling for floor, ceiling in limits) and sum(floor for floor, _ in limits) <= self.capacity
        require(1 <= len(limits) <= 16 and fit, 11)
        self.worlds = [World(self, floor, ceiling) for floor, ceiling in limits]

    def deepest(self, height, room):
        require(self.capacity, 1)
        require(1 <= height <= 22, 13)
        require(fewest(height) <= self.capacity, 8)
        words = [end for rank in level_by_level(height) for end in (2 * rank, 2 * rank)]
        require(len(words) <= room, 2)
        return worded(room, words)

    def why_full(self, room, bounds):
        require(self.capacity, 1)
        runs, firsts = [], []  # what is held, and of each run the place of the first range in it
        for place, (lower, upper) in enumerate(zip(bounds[::2], bounds[1::2])):
            first, last = between(*lower, *upper)
            if first <= last:
                i, j = bisect.bisect_left(runs, (first,)), bisect.bisect_left(runs, (last + 2,))
                i -= i > 0 and runs[i - 1][1] + 1 >= first
                joined = [(first, last)] + runs[i:j]
                runs[i:j] = [(min(run[0] for run in joined), max(run[1] for run in joined))]
                firsts[i:j] = [min([place] + firsts[i:j])]
            if len(runs) > self.capacity:
                return worded(room, sorted(firsts))
        raise Refused(16)


class World:
    runs = []

    def __init__(self, store, floor, ceiling):
        self.store, self.floor, self.ceiling = store, floor, ceiling

    def has_room(self, runs):
        beside = sum(max(len(world.runs), world.floor) for world in self.store.worlds if world is not self)
        require(len(runs) <= self.ceiling and beside + max(len(runs), self.floor) <= self.store.capacity, 8)

    def keep(self, runs):
        self.has_room(runs)
        self.runs = runs

    def set(self, first, last, value):
        if first > last:
            return 0
        changed = size(stretches(self.runs, first, last, not value))
        self.keep(union(outside(self.runs, first, last) + ([(first, last)] if value else [])))
        return changed

    def flip(self, first, last):
        if first <= last:
            self.keep(union(outside(self.runs, first, last) + free(self.runs, first, last)))

    def set_strict(self, first, last, value):
        require(first <= last + 1, 14)
        return self.set(first, last, value)

    def flip_strict(self, first, last):
        require(first <= last + 1, 14)
        self.flip(first, last)

    def tally_strict(self, first, last, value):
        require(first <= last + 1, 14)
        return self.tally(first, last, value)

    def get(self, x):
        return size(held(self.runs, x, x))

    def run_at(self, x):
        both = self.runs + free(self.runs, 0, LAST)
        return next(run for run in both if run[0] <= x <= run[1])

    def find(self, first, last, value):
        return self.select(first, last, value, 0)

    def tally(self, first, last, value):
        runs = stretches(self.runs, first, last, value)
        return size(runs), len(runs)

    def select(self, first, last, value, k):
        for start, end in stretches(self.runs, first, last, value):
            if k <= end - start:
                return start + k
            k -= end - start + 1
        return None

    def gap(self, first, last, length):
        require(length > 0, 9)
        return next((start for start, end in free(self.runs, first, last) if end - start + 1 >= length), None)

    def ranges(self, first, last, value):
        return (first, last, value) if first <= last else (1, 0, value)

    def draw_front(self, first, last, value):
        """The run, if there is one, and what is left of the listing."""
        for start, end in stretches(self.runs, first, last, value):
            return (start, end, *self.ranges(end + 1, last, value))
        return (1, 0, value)

    def draw_back(self, first, last, value):
        for start, end in reversed(stretches(self.runs, first, last, value)):
            return (start, end, *self.ranges(first, start - 1, value))
        return (1, 0, value)

    def shift(self, distance, left):
        self.keep(moved(self.runs, distance, left))

    def shifted(self, other, distance, left):
        self.keep(moved(other.runs, distance, left))

    def combine(self, operation, a, b):
        common = [piece for start, end in a.runs for piece in held(b.runs, start, end)]
        both = union(a.runs + b.runs)
        self.keep({"and": common, "or": both, "xor": without(both, common)}[operation])

    def complement(self, other):
        self.keep(free(other.runs, 0, LAST))

    def eq(self, other):
        return int(self.runs == other.runs)

    def empty(self):
        self.keep([])

    def build(self, runs):
        require(in_order(runs), 5)
        self.keep(runs)

    def load(self, written):
        self.build(runs_told(written))

    def mend(self, written, room, report_room):
        runs = runs_told(written)
        outcome = union([(start, end) for start, end in runs if start <= end])
        self.has_room(outcome)
        filled = fill_front(room, encoded(outcome, written[0] == 2)) + fill_front(report_room, fates(runs, outcome))
        self.runs = outcome
        return filled

    def write_set(self, edition, room):
        return fill_front(room, encoded(self.runs, edition == 2))

    def read_map(self, base, length, bits):
        first, last = window(base, length)
        require(len(bits) == (length + 7) // 8, 6)
        number = int.from_bytes(bits, "little")
        require(number >> length == 0, 10)
        new = [(first + ones.start(), first + ones.end() - 1) for ones in re.finditer("1+", f"{number:b}"[::-1])]
        old = held(self.runs, first, last)
        self.keep(union(outside(self.runs, first, last) + new))
        return size(without(old, new)) + size(without(new, old))

    def write_map(self, base, length, room):
        first, last = window(base, length)
        bits = bytearray(length)  # a byte for each position
        for start, end in held(self.runs, first, last):
            bits[start - first : end - first + 1] = b"\1" * (end - start + 1)
        number = int(bytes(bits[::-1]).translate(DIGITS), 2)
        return fill_front(room, number.to_bytes((length + 7) // 8, "little"))

    def set_rect(self, top, left, bottom, right, value):
        cells, old = union(rows(top, left, bottom, right)), self.runs
        self.keep(union(old + cells) if value else without(old, cells))
        return size(without(cells, old)) if value else size(without(old, self.runs))

    def count_rect(self, top, left, bottom, right):
        return sum(size(held(self.runs, first, last)) for first, last in rows(top, left, bottom, right))

    def survey(self, row, column, k, room):
        require(k <= 8 and max(row, column) + 2**k <= SIDE, 15)
        side = 2**k
        sums = [[0] * (side + 1)]  # how many cells above and to the left of a corner are held
        for first in range(row * SIDE + column, (row + side) * SIDE, SIDE):
            cells = [0] * side
            for start, end in held(self.runs, first, first + side - 1):
                cells[start - first : end - first + 1] = [1] * (end - start + 1)
            sums.append([a + b for a, b in zip(sums[-1], itertools.accumulate(cells, initial=0))])
        parts = pieces(sums, 0, 0, side, side)
        return worded(room, [word for y, x, *rest in parts for word in (row + y, column + x, *rest)])

    def fill(self, base, length):
        return (1000 * size(held(self.runs, *window(base, length))) + length - 1) // length


def rows(top, left, bottom, right):
    """The rows of a rectangle, each as a run, and those of full width as one."""
    require(top <= bottom < SIDE and left <= right < SIDE, 15)
    if (left, right) == (0, SIDE - 1):
        return [(top * SIDE, bottom * SIDE + right)]
    return [(row * SIDE + left, row * SIDE + right) for row in range(top, bottom + 1)]


def pieces(sums, row, column, high, wide):
    """The pieces of a part of a square."""
    count = sums[row + high][column + wide] - sums[row + high][column] - sums[row][column + wide] + sums[row][column]
    if count in (0, high * wide):
        return [(row, column, high, wide, int(count > 0))]
    if high == wide:  # a square is halved by column, and what is left of one by row
        wide //= 2
        return pieces(sums, row, column, high, wide) + pieces(sums, row, column + wide, high, wide)
    high //= 2
    return pieces(sums, row, column, high, wide) + pieces(sums, row + high, column, high, wide)


@functools.cache
def fewest(height):
    """How many runs a tree of the height has at least."""
    return fewest(height - 1) + fewest(height - 2) + 1 if height > 0 else 0


def level_by_level(height):
    """The ranks of such a tree, the right side of every node the higher one. Any list that makes the height will do, and this is not the pack's."""
    ranks, level = [], [(0, height)]
    while level:
        below = []
        for first, high in level:
            if high > 0:
                rank = first + fewest(high - 2)
                ranks.append(rank)
                below += [(first, high - 2), (rank + 1, high - 1)]
        level = below
    return ranks


def encoded(runs, by_columns):
    """The written set of runs: each has sixteen bytes, which stand together, or each with those of its place in the other runs."""
    table = [start.to_bytes(8, "big") + end.to_bytes(8, "big") for start, end in runs]
    table = [bytes(column) for column in zip(*table)] if by_columns else table
    return bytes([2 if by_columns else 1]) + len(runs).to_bytes(4, "big") + b"".join(table)


def runs_told(written):
    """The runs of a written set, in order or not."""
    require(len(written) >= 5, 3)
    require(written[0] in (1, 2), 4)
    count, rest = int.from_bytes(written[1:5], "big"), written[5:]
    require(len(rest) == 16 * count, 3)
    table = [rest[i::count] for i in range(count)] if written[0] == 2 else [rest[16 * i : 16 * i + 16] for i in range(count)]
    return [(int.from_bytes(run[:8], "big"), int.from_bytes(run[8:], "big")) for run in table]


def fates(runs, outcome):
    """What became of each run: 0 dropped, 1 joined, 2 kept."""
    where = [bisect.bisect_left(outcome, (start + 1,)) if start <= end else 0 for start, end in runs]
    within = [0] * (len(outcome) + 1)
    for place in where:
        within[place] += 1
    return bytes(0 if place == 0 else 1 if within[place] > 1 else 2 for place in where)


def convert(written, room):
    runs = runs_told(written)
    require(in_order(runs), 5)
    return fill_front(room, encoded(runs, written[0] == 1))


def clear_map(base, length, bits):
    """How many spare bits of a map were one, and the map without them."""
    window(base, length)
    require(len(bits) == (length + 7) // 8, 6)
    number = int.from_bytes(bits, "little")
    return bin(number >> length).count("1"), (number & 2**length - 1).to_bytes(len(bits), "little")


def fill_front(room, due):
    """How many bytes are written into a slice, and the slice."""
    require(len(due) <= room, 2)
    return len(due), due + b"\xee" * (room - len(due))


def worded(room, due):
    """The same of words."""
    require(len(due) <= room, 2)
    return len(due), due + [STALE] * (room - len(due))


# Long arguments by their patterns, and long answers by their digests.


def runs_by(pattern):
    runs = []
    for part in pattern.split(","):
        start, step, length, count, turn = map(int, part.split(":"))
        firsts = [start + step * (i * turn % count) & LAST for i in range(count)]
        runs += [(first, first + length - 1 & LAST) for first in firsts]
    return runs


def random_bytes(state, count):
    some = bytearray()
    for _ in range(count):
        state ^= state << 13 & LAST
        state ^= state >> 7
        state ^= state << 17 & LAST
        some.append(state & 255)
    return bytes(some)


def bytes_by(pattern):
    kind, _, rest = pattern.partition("=")
    if kind in ("rows", "columns"):
        return encoded(runs_by(rest), kind == "columns")
    if kind in ("random", "same"):
        a, count = map(int, rest.split(":"))
        return random_bytes(a, count) if kind == "random" else bytes([a]) * count
    return bytes.fromhex(pattern.strip("-"))


def digest(some):
    state = 14695981039346656037
    for byte in some:
        state = (state ^ byte) * 1099511628211 & LAST
    return f"{state:016x}"


def shown(value, whole=False):
    """A value of an answer: bytes and words in full only where they are few, or where the whole of them is asked for."""
    if isinstance(value, bytes):
        return f"#{len(value)}:{digest(value)}" if len(value) > 1029 else value.hex() or "-"
    if isinstance(value, list):
        short = whole or len(value) <= 128
        return " ".join(map(str, value)) if short else f"#{len(value)}:{digest(b''.join(word.to_bytes(8, 'big') for word in value))}"
    return str(value)


# The reader. Of each call its arguments: s a store, p the place of a world, n a number, r both bounds of a range, w a word, b bytes, l a list of
# pairs, j a list of bounds. Of those that answer more than "done", how the answer begins.

ARGUMENTS = {
    "words": "sn", "spoil": "s", "new": "sl", "deepest": "snn", "why_full": "snj", "set": "prn", "flip": "pr", "get": "pn", "run_at": "pn",
    "find": "prn", "tally": "prn", "select": "prnn", "gap": "prn", "ranges": "prn", "draw_front": "pnnn", "draw_back": "pnnn", "shift": "pnn",
    "shifted": "ppnn", "combine": "pwpp", "not": "pp", "eq": "pp", "load": "pb", "mend": "pbnn", "build": "pl", "write_set": "pnn", "read_map": "pnnb",
    "write_map": "pnnn", "clear_map": "nnb", "convert": "bn", "fill": "pnn", "set_strict": "prn", "flip_strict": "pr", "tally_strict": "prn",
    "set_rect": "pnnnnn", "count_rect": "pnnnn", "survey": "pnnnn",
}
ANSWERS = {
    "set": "number", "get": "value", "run_at": "run", "find": "at", "tally": "number", "select": "at", "gap": "at",
    "ranges": "listing", "draw_front": "drawn", "draw_back": "drawn", "eq": "value", "mend": "written", "write_set": "written", "read_map": "number",
    "write_map": "written", "clear_map": "cleared", "convert": "written", "deepest": "worded", "why_full": "worded", "fill": "number",
    "set_strict": "number", "tally_strict": "number", "set_rect": "number", "count_rect": "number", "survey": "worded",
}
STORELESS = {"clear_map": clear_map, "convert": convert}


def sound(stores):
    require(all(store.capacity for store in stores), 1)
    require(all(store.worlds is not None for store in stores), 7)


def worlds(places):
    """The worlds of a call, each a store and a number: 1 for any store, then 7 for any, then 12 for any world."""
    sound([store for store, _ in places])
    require(all(number < len(store.worlds) for store, number in places), 12)
    return [store.worlds[number] for store, number in places]


def arguments(kinds, words, stores):
    for kind in kinds:
        word = next(words)
        if kind == "s":
            yield stores[int(word)]
        elif kind == "p":
            store, number = map(int, word.split("/"))
            yield stores[store], number
        elif kind == "r":
            upper = next(words)
            yield 0 if word == "u" else int(word[1:]) + (word[0] == "e")
            yield LAST if upper == "u" else int(upper[1:]) - (upper[0] == "e")
        elif kind == "b":
            yield b"".join(map(bytes_by, word.split("+")))
        elif kind in "lj" and word[0] == "*":
            runs = runs_by(word[1:])
            yield runs if kind == "l" else [(1, end) for run in runs for end in run]
        elif kind in "lj":
            yield [(int(next(words)), int(next(words))) for _ in range(int(word))]
        else:
            yield int(word) if kind == "n" else word


def answer(line, stores):
    name, *words = line.split()
    given = list(arguments(ARGUMENTS[name], iter(words), stores))
    try:
        meant = iter(worlds([one for one in given if isinstance(one, tuple)]))
        given = [next(meant) if isinstance(one, tuple) else one for one in given]
        call = STORELESS.get(name) or getattr(type(given[0]), "complement" if name == "not" else name)
        result = call(*given)
    except Refused as refused:
        return f"refused {refused}"
    values = result if isinstance(result, tuple) else () if result is None else (result,)
    begin = ANSWERS.get(name, "done")
    begin = {("at", 0): "none", ("drawn", 3): "end"}.get((begin, len(values)), begin)
    return " ".join([begin, *(word for word in (shown(v, name == "deepest") for v in values) if word)])


# Frames. Of each number that names a call what it takes of a record: r both bounds, x and y their values, q the four words of both as corners, v the
# truth, k the number. A record with a withdrawn number asks at a world that no pool has.

CALLS = {
    1: ("empty", ""), 2: ("set", "rv"), 3: ("flip", "r"), 4: ("shift", "xv"), 5: ("run_at", "x"), 6: ("find", "rv"), 8: ("select", "rvk"),
    10: ("ranges", "rv"), 11: ("draw_front", "xyv"), 12: ("draw_back", "xyv"), 13: ("fill", "xy"), 14: ("gap", "rk"), 15: ("tally", "rv"),
    16: ("set_strict", "rv"), 17: ("flip_strict", "r"), 18: ("tally_strict", "rv"), 19: ("set_rect", "qv"), 20: ("count_rect", "q"),
}
WITHDRAWN = {7, 9}


def play(store, number, lower, x, upper, y, value, k, world):
    """Makes the call that a record means, and tells the record of its answer."""
    name, kinds = CALLS.get(number, ("get", "x"))
    world = LAST if number in WITHDRAWN else world
    given = {"r": between(lower, x, upper, y), "x": [x], "y": [y], "q": [lower, x, upper, y], "v": [int(value != 0)], "k": [k]}
    try:
        result = getattr(*worlds([(store, world)]), name)(*(word for kind in kinds for word in given[kind]))
    except Refused as refused:
        return [refused, 0, 0, 0, 0, 0, 0, 0]
    begin = ANSWERS.get(name)
    if result is None:
        told = [0, 0, 0]
    elif name in ("tally", "tally_strict"):
        told = [result[0] >> 64, result[0] & LAST, result[1]]
    elif begin in ("number", "value"):
        told = [result >> 64, result & LAST, 0]
    elif begin == "at":
        told = [1, result, 0]
    elif begin == "run":
        told = [0, *result]
    else:  # a run, if one was drawn, and a listing
        told = [1, *result] if len(result) == 5 else [0, 0, 0, *result]
    return [0, *told] + [0] * (7 - len(told))


def frame(lines, store, count, room):
    """The answers to a frame and to its records, which are the next lines."""
    try:
        sound([store])
        require(count <= room, 2)
    except Refused as refused:
        yield f"refused {refused}"
        for _ in range(count):
            next(lines)
            yield "-"
        return
    yield "done"
    for _ in range(count):
        yield " ".join(["record", *map(str, play(store, *map(int, next(lines).split()[1:])))])


def answers(lines, stores):
    """The answer to each line in turn; a call is made when its answer is asked for."""
    for line in lines:
        if line.startswith("frame "):
            at, *numbers = map(int, line.split()[1:])
            yield from frame(lines, stores[at], *numbers)
        else:
            yield answer(line, stores)


if __name__ == "__main__":
    for told in answers(iter(sys.stdin), [Store() for _ in range(4)]):
        print(told)
