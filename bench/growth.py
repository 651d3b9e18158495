#!/usr/bin/env python3
"""Counts the program's instructions on scripts, and on scripts two and four times as long. It is run by hand, and is no part of
the gate. It takes valgrind.

    bench/growth.py PROGRAM [--work WORD]

PROGRAM makes stores and replays scripts as `brahma init` and `brahma replay` do. The scripts are those of bench.py and the heaps
of collector.py, each collected; WORD takes those alone that have it in their names. Each run has a fresh store of 8,192 ids in a
folder of its own, in memory where there is such a place. Counts are in millions, less that of the empty script, and are the same on
each run, whatever else the machine does. Behind them stand the exponents of their growth: 1 is growth in proportion.
"""
import argparse
import math
import os
import re
import subprocess
import sys
import tempfile

import bench
import collector

WORKS = [
    ("one client", lambda size: bench.many_clients(1, size), 10000),
    ("64 clients", lambda size: bench.many_clients(64, size), 10000),
    ("63 readers, one writer in vain", bench.idle_readers, 10000),
    ("one transaction, commit", lambda size: bench.one_transaction(size, "1 commit"), 10000),
    ("locks given back", bench.locks_given_back, 10000),
    ("one transaction, abort", lambda size: bench.one_transaction(size, "1 abort"), 10000),
] + [(shape.__name__.replace("_", " "), lambda size, shape=shape: shape(size) + ["gc all"], 2000) for shape in collector.SHAPES]


def instructions(program, script):
    """How many instructions a replay of the script takes on a fresh store."""
    folder = "/dev/shm" if os.path.isdir("/dev/shm") else None
    with tempfile.TemporaryDirectory(dir=folder) as store, tempfile.TemporaryDirectory(dir=folder) as notes:
        subprocess.run([program, "init", "1024"], cwd=store, stdout=subprocess.DEVNULL, check=True)
        counter = ["valgrind", "--tool=callgrind", "--callgrind-out-file=%s/counts" % notes]
        done = subprocess.run(counter + [program, "replay"], cwd=store, input="".join(line + "\n" for line in script).encode(),
                              stdout=subprocess.DEVNULL, stderr=subprocess.PIPE)
    if done.returncode != 0:
        sys.exit("status %d of %s" % (done.returncode, program))
    return int(re.search(rb"refs:\s*([\d,]+)", done.stderr).group(1).replace(b",", b""))


def main():
    parser = argparse.ArgumentParser()
    parser.add_argument("program")
    parser.add_argument("--work", default="")
    options = parser.parse_args()
    program = os.path.abspath(options.program)
    idle = instructions(program, [])
    print("%-32s %9s %9s %9s  %s" % ("work", "once", "twice", "four times", "exponents (millions of instructions)"))
    for name, make, size in WORKS:
        if options.work not in name:
            continue
        counts = [instructions(program, make(size * times)) - idle for times in (1, 2, 4)]
        growth = [math.log(later / count, 2) for count, later in zip(counts, counts[1:])]
        print("%-32s %9.1f %9.1f %9.1f " % (name, *(count / 1e6 for count in counts)),
              *("%.2f" % exponent for exponent in growth), flush=True)


if __name__ == "__main__":
    main()
