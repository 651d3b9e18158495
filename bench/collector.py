#!/usr/bin/env python3
"""Times the collector on heaps and on heaps twice as large. It is run by hand, and is no part of the gate.

    bench/collector.py PROGRAM [--runs N] [--sizes N,N,..] [--shapes NAME,NAME,..]

PROGRAM makes stores and replays scripts as `brahma init` and `brahma replay` do; each run has a fresh store of 8,192 ids in a
folder of its own, in memory where there is such a place. The time of a heap is that of its script with `gc all` after it,
less that with `gc step`: user and system time, each the least of N runs. Behind the times of a shape stand the exponents of
their growth: 1 is growth in proportion.
"""
import argparse
import math
import os
import resource
import subprocess
import sys
import tempfile

from stores import SLOTS

# How many leaves a node has beside the next one.
LEAVES = SLOTS - 1


def transaction(calls):
    """One transaction of client 1."""
    return ["1 " + call for call in ["begin"] + calls + ["commit"]]


def ring_from(first, objects):
    """A ring of new objects; the first is in register 1 and in this slot of the root, the last points to it."""
    calls = ["make 1", "store 0 %d 1" % first, "read 0 %d 3" % first]
    here, behind = 1, 2
    for _ in range(objects - 1):
        calls += ["make %d" % behind, "store %d 0 %d" % (here, behind)]
        here, behind = behind, here
    return calls + ["store %d 0 3" % here]


def live_ring(objects):
    """A ring that the root points to twice loses its strong pointer."""
    return transaction(ring_from(0, objects) + ["store 0 1 3", "store 0 0 -"])


def live_fan(objects):
    """A list dies, each of its nodes with leaves in all its other slots, to which another list points too."""
    calls = ["make 1", "store 0 0 1", "make 2", "store 0 1 2"]
    dying, living, free = 1, 2, 3
    made = 2
    while made + LEAVES + 2 <= objects:
        for slot in range(1, SLOTS):
            calls += ["make 5", "store %d %d 5" % (dying, slot), "store %d %d 5" % (living, slot)]
        calls += ["make %d" % free, "store %d 0 %d" % (dying, free)]
        dying, free = free, dying
        calls += ["make %d" % free, "store %d 0 %d" % (living, free)]
        living, free = free, living
        made += LEAVES + 2
    return transaction(calls + ["store 0 0 -"])


def dead_rings(objects):
    """Rings of a hundred objects die, one after another."""
    script = []
    for _ in range(objects // 100):
        script += transaction(ring_from(0, 100) + ["store 0 0 -"])
    return script


def two_object_cycles(objects):
    """Cycles of two objects die, one after another; one object of each is queued."""
    return transaction(ring_from(0, 2) + ["store 0 0 -"]) * (objects // 2)


def queued_cycles(objects):
    """Cycles of two objects die, of which both are queued."""
    dies = ["read 0 0 1", "read 1 0 2", "store 1 0 -", "store 1 0 2", "store 0 0 -"]
    return (transaction(ring_from(0, 2)) + transaction(dies)) * (objects // 2)


def undone_cuts(objects):
    """All pointers of a list are cut by a transaction that aborts, and so they are weak; all its objects are queued."""
    calls = ["make 1", "store 0 0 1"]
    here, behind = 1, 2
    for _ in range(objects - 1):
        calls += ["make %d" % behind, "store %d 0 %d" % (here, behind)]
        here, behind = behind, here
    script = transaction(calls) + ["1 begin"]
    here, behind = 0, 1
    for _ in range(objects):
        script += ["1 read %d 0 %d" % (here, behind), "1 store %d 0 -" % here]
        here, behind = behind, 2 if behind == 1 else 1
    return script + ["1 abort"]


SHAPES = [live_ring, live_fan, dead_rings, two_object_cycles, queued_cycles, undone_cuts]


def replay(program, path, folder, output):
    """A script is replayed on a fresh store."""
    with tempfile.TemporaryDirectory(dir=folder) as store, open(path) as script:
        subprocess.run([program, "init", "1024"], cwd=store, stdout=subprocess.DEVNULL, check=True)
        before = resource.getrusage(resource.RUSAGE_CHILDREN)
        done = subprocess.run([program, "replay"], cwd=store, stdin=script, stdout=output)
        after = resource.getrusage(resource.RUSAGE_CHILDREN)
    if done.returncode != 0:
        sys.exit("status %d of %s" % (done.returncode, program))
    return done.stdout, after.ru_utime - before.ru_utime + after.ru_stime - before.ru_stime


def seconds(program, path, folder):
    """The user and system time of one run."""
    return replay(program, path, folder, subprocess.DEVNULL)[1]


def collection(program, folder, script, runs):
    """The time of the collection after a script, in seconds."""
    paths = []
    for last in ("gc all", "gc step"):
        paths.append(os.path.join(folder, last.replace(" ", "-")))
        with open(paths[-1], "w") as file:
            file.write("\n".join(script + [last]) + "\n")
    if b": full\n" in replay(program, paths[0], folder, subprocess.PIPE)[0]:
        sys.exit("the store has too few ids")
    times = [[seconds(program, path, folder) for path in paths] for _ in range(runs)]
    return min(whole for whole, _ in times) - min(rest for _, rest in times)


def main():
    parser = argparse.ArgumentParser()
    parser.add_argument("program")
    parser.add_argument("--runs", type=int, default=20)
    parser.add_argument("--sizes", default="1000,2000,4000,8000")
    parser.add_argument("--shapes", default=",".join(shape.__name__ for shape in SHAPES))
    options = parser.parse_args()
    sizes = [int(size) for size in options.sizes.split(",")]
    print("%-18s" % "shape", *("%8d" % size for size in sizes), " exponents (times in milliseconds)")
    program = os.path.abspath(options.program)
    with tempfile.TemporaryDirectory(dir="/dev/shm" if os.path.isdir("/dev/shm") else None) as folder:
        for shape in SHAPES:
            if shape.__name__ not in options.shapes.split(","):
                continue
            times = [collection(program, folder, shape(size), options.runs) for size in sizes]
            pairs = zip(sizes, times, sizes[1:], times[1:])
            growth = [math.log(later / time, 2) / math.log(larger / size, 2) for size, time, larger, later in pairs]
            print("%-18s" % shape.__name__, *("%8.2f" % (1000 * time) for time in times), "",
                  *("%.2f" % exponent for exponent in growth), flush=True)


if __name__ == "__main__":
    main()
