"""Answers lists of calls as conformance/example.py does, but with one answer in place of another, wherever that one is given."""

import os
import sys

sys.dont_write_bytecode = True
sys.path.insert(0, os.path.join(os.path.dirname(os.path.abspath(__file__)), "../../conformance"))
import example

right, wrong = sys.argv[1:]
for told in example.answers(iter(sys.stdin), [example.Store() for _ in range(4)]):
    print(wrong if told == right else told)
