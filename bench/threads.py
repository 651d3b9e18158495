#!/usr/bin/env python3
"""Times clients on threads, as a Markdown table. It is run by hand, on a quiet machine, and is no part of the gate.

    bench/threads.py [--runs N] [--program PATH]

The program is crates/share_bench, built by `rt run` in its folder. Each of its runs is made N times, 5 without it, and
the most calls a second count: of clients with passes of the shared store, of clients with a lock round one journal, and
of one thread that makes the calls of all clients in turn.
"""
import argparse
import os
import re
import subprocess
import sys

PROGRAM = os.path.join(os.path.dirname(os.path.abspath(__file__)), "..", "crates", "share_bench", "out", "share_bench")
CALLS = 100000
CLIENTS = (1, 2, 4)
MIXES = (("reads", "reads"), ("writes", "one write in ten"))
HOWS = ("shared", "mutex", "alone")
LINE = re.compile(r"([0-9]+) calls in ([0-9]+) microseconds, ([0-9]+) a second\n")


def rate(program, words):
    """The calls a second of one run."""
    done = subprocess.run([program, *words], stdout=subprocess.PIPE, text=True)
    told = LINE.fullmatch(done.stdout)
    if done.returncode != 0 or not told or int(told[1]) != CALLS * int(words[1]):
        sys.exit("status %d of %s with %r" % (done.returncode, " ".join(words), done.stdout))
    return int(told[3])


def row(program, runs, clients, mix):
    """The most calls a second of each kind. The kinds take turns, so that what else the machine does hits all of them."""
    most = dict.fromkeys(HOWS, 0)
    for _ in range(runs):
        for how in HOWS:
            most[how] = max(most[how], rate(program, [how, str(clients), mix]))
    return [most[how] for how in HOWS]


def main():
    words = argparse.ArgumentParser(description=__doc__.split("\n")[0])
    words.add_argument("--runs", type=int, default=5)
    words.add_argument("--program", default=PROGRAM)
    words = words.parse_args()
    program = os.path.abspath(words.program)
    print("| Calls | Clients | Shared store | Lock round one journal | One thread |")
    print("|---|---|---|---|---|")
    for mix, name in MIXES:
        for clients in CLIENTS:
            rates = row(program, words.runs, clients, mix)
            print("| %s | %d | %s |" % (name, clients, " | ".join(f"{it:,}" for it in rates)), flush=True)


if __name__ == "__main__":
    main()
