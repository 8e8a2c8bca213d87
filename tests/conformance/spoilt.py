#!/usr/bin/env python3
"""Spoils our answers to deepest.calls, in one thing each, and gives them to the judge: it has to take ours, and none of the others."""

import subprocess
import sys

STALE = 0xEEEEEEEEEEEEEEEE  # what each word of a slice is before the call

judge, calls, answers = sys.argv[1:]
calls, answers = ([line.rstrip("\n") for line in open(name)] for name in (calls, answers))


def words_of(line):
    """The words that were written, and those after them."""
    count, *words = map(int, line.split()[1:])
    return words[:count], words[count:]


def worded(words, rest):
    return " ".join(map(str, ["worded", len(words), *words, *rest]))


def runs(words):
    return list(zip(words[::2], words[1::2]))


def flat(pairs):
    return [end for pair in pairs for end in pair]


def mirrored(words):
    return [max(words) - word for word in words]


def first(height, more=0):
    """The first line that is answered with a list for the height, with at least so many words after it."""
    return next(i for i, line in enumerate(calls) if line.split()[2:3] == [str(height)] and answers[i].startswith("worded") and len(words_of(answers[i])[1]) >= more)


def every(height, change):
    """All lists for a height changed alike, so that equal calls get equal lists."""
    return [change(*words_of(told)) if call.startswith("deepest ") and call.split()[2] == str(height) and told.startswith("worded") else told
            for call, told in zip(calls, answers)]


def one(at, told):
    return answers[:at] + [told] + answers[at + 1:]


four, five = first(4), first(5, 2)
refused = answers.index("refused 8")
spoilt = {
    "one run more": one(five, worded(words_of(answers[five])[0] + [100, 100], words_of(answers[five])[1][2:])),
    "one run less": every(5, lambda words, rest: worded(words[:-2], [STALE, STALE] + rest)),
    "the runs in rising order": every(4, lambda words, rest: worded(flat(sorted(runs(words))), rest)),
    "the runs in falling order": every(5, lambda words, rest: worded(flat(sorted(runs(words), reverse=True)), rest)),
    "a run that touches another": every(4, lambda words, rest: worded([word + (word == 4) for word in words], rest)),
    "a start above its end": every(4, lambda words, rest: worded([words[0] + 1] + words[1:], rest)),
    "the same run twice": every(4, lambda words, rest: worded(words[:-2] + words[:2], rest)),
    "another list for one of two equal calls": one(four, worded(mirrored(words_of(answers[four])[0]), words_of(answers[four])[1])),
    "a word after the list changed": one(five, answers[five][:-1] + "5"),
    "a slice that is a word shorter": one(five, answers[five].rsplit(" ", 1)[0]),
    "another refusal": one(refused, "refused 2"),
    "a refusal instead of a list": one(four, "refused 8"),
    "a list instead of a refusal": one(refused, answers[four]),
    "no list of words": one(four, "done"),
    "an answer that is missing": answers[:-1],
    "one answer more": answers + ["done"],
}
right = {
    "ours": answers,
    "another list for all calls of a height": every(5, lambda words, rest: worded(mirrored(words), rest)),
}
failed = 0
for due, forms in ((1, spoilt), (0, right)):
    for name, lines in forms.items():
        told = subprocess.run([sys.executable, judge], input="".join(line + "\n" for line in lines), capture_output=True, text=True)
        if told.returncode != due or not told.stdout or (due and lines == answers):
            failed += 1
            print(f"the judge on {name}: exit status {told.returncode}", told.stdout, told.stderr, sep="\n")
if failed == 0:
    print(f"the judge of deepest takes {len(right)} forms of answers, and none of {len(spoilt)} spoilt ones")
sys.exit(failed > 0)
