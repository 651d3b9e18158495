#!/usr/bin/env python3
"""Times audits and markings by pieces, as a Markdown table. It is run by hand, on a quiet machine, and is no part of the gate.

    bench/audits.py [--runs N] [--program PATH]

The program is crates/audit_bench, built by `rt run` in its folder. Each of its runs is made N times, 5 without it, and the
least times count. A run makes cells in memory, does the work on them many times, and prints the least wall time and the least
processor time. The works are

- the audit of a store of 1,024 pages with 8,192 live objects, after the replay of its log;
- the count of all pointers and the marking, on 64 times as many cells;
- the marking alone, on the same two.

In the random graph each of the fourteen slots of an object names an object drawn at random. In the chain each object names the
next one alone. Plain is one thread without pieces, which finds the same: the plain audit (on cells alone its count of pointers),
and a marking that follows one object after another.
"""
import argparse
import os
import re
import subprocess
import sys

PROGRAM = os.path.join(os.path.dirname(os.path.abspath(__file__)), "..", "crates", "audit_bench", "out", "audit_bench")
WORKS = (("audit", "audit"), ("marks", "marking"))
GRAPHS = (("random", "random"), ("chain", "chain"))
STORES = (("pages", 8192), ("cells", 524288))
HOWS = ("plain", "1", "2", "4")
LINE = re.compile(r"found ([0-9]+): at best ([0-9]+) microseconds, ([0-9]+) of processor time\n")


def times(program, words):
    """What one run found, and its wall and processor time in microseconds."""
    done = subprocess.run([program, *words], stdout=subprocess.PIPE, text=True)
    told = LINE.fullmatch(done.stdout)
    if done.returncode != 0 or not told:
        sys.exit("status %d of %s with %r" % (done.returncode, " ".join(words), done.stdout))
    return int(told[1]), int(told[2]), int(told[3])


def row(program, runs, words):
    """The least wall and processor time by each number of pieces. They take turns, so that what else the machine does hits all."""
    wall, processor, found = {}, {}, {}
    for _ in range(runs):
        for how in HOWS:
            found[how], took, used = times(program, [*words, how])
            wall[how] = min(wall.get(how, took), took)
            processor[how] = min(processor.get(how, used), used)
    if len(set(found.values())) != 1:
        sys.exit("%s found otherwise by another number of pieces: %s" % (" ".join(words), found))
    return wall, processor


def main():
    words = argparse.ArgumentParser(description=__doc__.split("\n")[0])
    words.add_argument("--runs", type=int, default=5)
    words.add_argument("--program", default=PROGRAM)
    words = words.parse_args()
    program = os.path.abspath(words.program)
    print("Wall times in milliseconds. Faster: how many times as fast as with one piece. Processor: the processor time with one")
    print("piece, in times of the plain one.\n")
    print("| Work | Graph | Objects | Plain | 1 piece | 2 pieces | 4 pieces | 2 faster | 4 faster | Processor |")
    print("|---|---|---|---|---|---|---|---|---|---|")
    for work, work_name in WORKS:
        for store, objects in STORES:
            for graph, graph_name in GRAPHS:
                wall, processor = row(program, words.runs, [work, graph, store])
                cells = ["%.2f" % (wall[how] / 1000) for how in HOWS]
                cells += ["%.2f" % (wall["1"] / wall[how]) for how in ("2", "4")]
                cells.append("%.2f" % (processor["1"] / processor["plain"]))
                print("| %s | %s | %s | %s |" % (work_name, graph_name, f"{objects:,}", " | ".join(cells)), flush=True)


if __name__ == "__main__":
    main()
