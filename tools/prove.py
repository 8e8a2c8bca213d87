#!/usr/bin/env python3
"""Proves the crates that the archive is made of, side by side where they do not stand on each other, and writes the archive.

    python3 tools/prove.py CRATE [JOBS]

CRATE and the crates below it, as crates.txt has them, each by `rt lib`, JOBS at a time (one for each processor if left out). It prints a line for
each crate as it is done, and the log of one that is not proved. What a crate stands on is proved before it is begun.
"""
import os
import subprocess
import sys
import time

crate = sys.argv[1]
jobs = int(sys.argv[2]) if len(sys.argv) > 2 else os.cpu_count() or 1

below = {}
for line in open("crates.txt"):
    head, colon, names = line.partition(":")
    if colon and not line.startswith("#"):
        below[head.split()[0]] = names.split()
parts = [name for name in below if name == crate or name in below[crate]]
above = {name: [n for n in below[name] if n in below] for name in parts}

done, running, began = set(), {}, time.time()
while len(done) < len(parts):
    for name in parts:
        ready = name not in done and name not in running and all(n in done for n in above[name])
        if ready and len(running) < jobs:
            log = open(f"target/lib-{name}.log", "w+")
            process = subprocess.Popen(["rt", "lib"], cwd=f"crates/{name}", stdout=log, stderr=subprocess.STDOUT)
            running[name] = (process, log, time.time())
    time.sleep(0.1)
    for name, (process, log, since) in list(running.items()):
        status = process.poll()
        if status is None:
            continue
        del running[name]
        if status:
            for other, _, _ in running.values():
                other.terminate()
            log.seek(0)
            sys.exit(f"{name} is not proved:\n{log.read()}")
        done.add(name)
        print(f"{len(done):2d} of {len(parts)}  {name}  {time.time() - since:.0f} s", flush=True)
print(f"proved in {time.time() - began:.0f} s")
