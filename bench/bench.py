#!/usr/bin/env python3
"""Times the program on scripts and on scripts twice as long. It is run by hand, and is no part of the gate.

    bench/bench.py [--lines N] [--beside COMMAND]

Each run has a fresh store of one page in a folder of its own, in memory where there is such a place. N is the length of the
shorter script of each pair, 30,000 without it, at most 32,768. The time of a run is the least of five. COMMAND, a program that
takes the same words and scripts, is timed on the longer script for comparison.
"""
import argparse
import os
import random
import subprocess
import sys
import tempfile
import time

from stores import SLOTS

PROGRAM = os.path.join(os.path.dirname(os.path.abspath(__file__)), "..", "brahma")
RUNS = 5


def many_clients(clients, lines):
    """Short transactions of so many clients, in turn: each reads, writes, and commits or aborts."""
    draw = random.Random(clients)
    calls = ["begin", "read 0 %d 1", "get 0", "set 0 %d", "make 2", "store 0 %d 2", "undo", "commit", "abort"]
    weights = [4, 6, 4, 3, 1, 2, 1, 4, 2]
    script = []
    while len(script) < lines:
        call = draw.choices(calls, weights)[0]
        if "%d" in call:
            call = call % draw.randrange(SLOTS)
        script.append("%d %s" % (draw.randrange(clients) + 1, call))
    return script


def one_transaction(lines, end):
    """One long transaction of one client, which writes and reads the root, and its end."""
    body = ["1 set 0 %d" % n if n % 3 else "1 store 0 %d 0" % (n % SLOTS) for n in range(lines - 2)]
    return ["1 begin"] + body + [end]


def idle_readers(lines):
    """63 clients share the root and go on reading it, while one asks for it in vain."""
    begun = ["%d begin" % p for p in range(1, 65)] + ["%d get 0" % p for p in range(2, 65)]
    return begun + ["1 set 0 1" if n % 2 else "%d get 0" % (2 + n % 63) for n in range(lines - len(begun))]


def locks_given_back(lines):
    """One client shares each object of a ring, and then goes round once more and gives each lock back."""
    count = lines // 6
    ring = ["make 1", "store 0 0 1", "read 0 0 2"] + ["make 3", "store 2 0 3", "read 2 0 2"] * (count - 1) + ["store 2 0 1"]
    round_again = ["read 1 0 2", "release 1", "read 2 0 1", "release 2"] * (count // 2)
    calls = ["begin", *ring, "commit", "begin", "read 0 0 1", *["read 1 0 1"] * count, *round_again, "commit"]
    return ["1 " + call for call in calls]


def seconds(command, script):
    """The least time of some runs, in seconds."""
    text = ("\n".join(script) + "\n").encode()
    least = None
    for _ in range(RUNS):
        with tempfile.TemporaryDirectory(dir="/dev/shm" if os.path.isdir("/dev/shm") else None) as store:
            subprocess.run(command + ["init", "1"], cwd=store, stdout=subprocess.DEVNULL, check=True)
            start = time.perf_counter()
            done = subprocess.run(command + ["replay"], cwd=store, input=text, stdout=subprocess.DEVNULL)
            taken = time.perf_counter() - start
        if done.returncode != 0:
            sys.exit("status %d of %s" % (done.returncode, " ".join(command)))
        least = taken if least is None else min(least, taken)
    return least


def main():
    parser = argparse.ArgumentParser()
    parser.add_argument("--lines", type=int, default=30000)
    parser.add_argument("--beside")
    options = parser.parse_args()
    scripts = [("%d clients" % c, lambda lines, c=c: many_clients(c, lines)) for c in (1, 8, 64)]
    scripts += [("63 readers, one writer in vain", idle_readers),
                ("one transaction, commit", lambda lines: one_transaction(lines, "1 commit")),
                ("one transaction, abort", lambda lines: one_transaction(lines, "1 abort"))]
    program = [os.path.abspath(PROGRAM)]
    seconds(program, ["1 begin"])
    print("%-32s %9s %9s %7s %9s" % ("script", "%d" % options.lines, "%d" % (2 * options.lines), "ratio", "beside"))
    for name, make in scripts:
        once, twice = seconds(program, make(options.lines)), seconds(program, make(2 * options.lines))
        beside = "%9.3f" % seconds(options.beside.split(), make(2 * options.lines)) if options.beside else ""
        print("%-32s %9.3f %9.3f %7.2f %9s" % (name, once, twice, twice / once, beside))


if __name__ == "__main__":
    main()
