#!/usr/bin/env python3
"""Damages stores at random, and looks what the program makes of them. It is run by hand, and is no part of the gate.

    bench/damage.py [--stores N] [--seed S] [--jobs J] [--program PATH]

N is 1,000 without it. Each store is one of a few that scripts made, with one to four changes of its four files: bytes
changed, cut off, added or laid over from elsewhere. The program opens it for an empty script. It has to end within ten
seconds, at status 0 with the objects that are stored, or at status 7 with the place of the damage. A store that it
refuses has to be as it was, byte for byte; one that it opened has to open again to the same objects, with counts that
are right. What else it does is printed with the seed of the store, and the status is then 1.
"""
import argparse
import os
import random
import re
import shutil
import subprocess
import sys
import tempfile
from concurrent.futures import ThreadPoolExecutor

from stores import FILES, SOUND

HERE = os.path.dirname(os.path.abspath(__file__))
STORED = re.compile(rb"stored( [0-9]+)+\n")
REFUSED = re.compile(rb"refused: (no store|version [0-9]+|page [0-9]+ at [0-9]+|log [AB] at [0-9]+|object [0-9]+ rule [1-5])\n")
SECONDS = 10
BASES = 24


def script(draw):
    """A script of some clients, with collections, pages written in place, turns of the log and losses of power."""
    calls = ["begin", "make %d", "store %d %d %d", "store %d %d -", "read %d %d %d", "set %d %d", "release %d", "commit", "abort", "undo"]
    weights = [6, 6, 8, 3, 6, 2, 2, 6, 1, 2]
    lines = []
    for _ in range(draw.randrange(20, 200)):
        if draw.random() < 0.1:
            lines.append(draw.choice(["gc step", "gc all", "clean 0", "turn", "crash %d" % draw.randrange(10)]))
            continue
        call = draw.choices(calls, weights)[0]
        numbers = tuple(draw.randrange(6) for _ in range(call.count("%d")))
        lines.append("%d %s" % (draw.randrange(1, 4), call % numbers))
    return ("\n".join(lines) + "\n").encode()


def run(program, words, text, folder):
    """The status and the output, or no status where it took too long."""
    try:
        done = subprocess.run([program, *words], input=text, stdout=subprocess.PIPE, stderr=subprocess.PIPE, cwd=folder, timeout=SECONDS)
    except subprocess.TimeoutExpired:
        return None, b""
    return done.returncode, done.stdout


def held(folder):
    """The bytes of the four files."""
    found = []
    for name in FILES:
        path = os.path.join(folder, name)
        if os.path.isfile(path):
            with open(path, "rb") as file:
                found.append(file.read())
        else:
            found.append(b"")
    return found


def lay(folder, areas):
    """Puts these bytes into the four files."""
    for name, area in zip(FILES, areas):
        with open(os.path.join(folder, name), "wb") as file:
            file.write(area)


def bases(program, seed):
    """Stores that scripts made."""
    made = []
    for at in range(BASES):
        draw = random.Random("base %d %d" % (seed, at))
        folder = tempfile.mkdtemp()
        try:
            run(program, ["init", str(draw.choice([1, 1, 2, 5]))], b"", folder)
            for _ in range(draw.randrange(4)):
                run(program, ["replay"], script(draw), folder)
            made.append(held(folder))
        finally:
            shutil.rmtree(folder)
    return made


def damage(draw, areas):
    """One change of one file."""
    at = draw.choices(range(4), [5, 5, 3, 1])[0]
    area = bytearray(areas[at])
    kind = draw.randrange(5)
    place = draw.randrange(len(area) + 1)
    if kind == 0:
        del area[place:]
    elif kind == 1:
        area[place:place] = bytes(draw.randrange(256) for _ in range(draw.randrange(1, 9)))
    elif kind == 2 and area:
        first = draw.randrange(len(area))
        area[place:place + draw.randrange(1, 65)] = area[first:first + draw.randrange(1, 65)]
    elif kind == 3 and place < len(area):
        area[place] ^= 1 << draw.randrange(8)
    elif place < len(area):
        area[place] = draw.choice([0, 1, 2, 5, 14, 255, draw.randrange(256)])
    areas[at] = bytes(area)


def fault_of(program, areas, folder):
    """What the program does wrong with a store, if anything."""
    lay(folder, areas)
    status, text = run(program, ["replay"], b"", folder)
    if status is None:
        return "took more than %d seconds" % SECONDS
    if status == 7:
        if not REFUSED.fullmatch(text):
            return "refused with %r" % text
        return None if held(folder) == areas else "refused with %r and wrote" % text
    if status != 0 or not STORED.fullmatch(text):
        return "status %d with %r" % (status, text)
    again = run(program, ["replay"], b"", folder)
    if again != (0, text):
        return "opened to %r, and then to %r" % (text, again)
    audit = run(program, ["audit"], b"", folder)
    return None if audit[0] == 0 and SOUND.fullmatch(audit[1]) else "opened, and the audit told %r" % (audit,)


def try_one(program, made, seed):
    """The seed of a store, what the program did wrong with it, and whether it was refused."""
    draw = random.Random("store %s" % seed)
    areas = list(draw.choice(made))
    for _ in range(draw.randrange(1, 5)):
        damage(draw, areas)
    folder = tempfile.mkdtemp(dir="/dev/shm" if os.path.isdir("/dev/shm") else None)
    try:
        return seed, fault_of(program, areas, folder)
    finally:
        shutil.rmtree(folder)


def main():
    words = argparse.ArgumentParser(description=__doc__.split("\n")[0])
    words.add_argument("--stores", type=int, default=1000)
    words.add_argument("--seed", type=int, default=1)
    words.add_argument("--jobs", type=int, default=os.cpu_count())
    words.add_argument("--program", default=os.path.join(HERE, "..", "brahma"))
    words = words.parse_args()
    program = os.path.abspath(words.program)
    made = bases(program, words.seed)
    wrong = 0
    with ThreadPoolExecutor(words.jobs) as pool:
        seeds = ("%d %d" % (words.seed, at) for at in range(words.stores))
        for seed, fault in pool.map(lambda it: try_one(program, made, it), seeds):
            if fault:
                wrong += 1
                print("store %s: %s" % (seed, fault))
    print("stores: %d, wrong: %d" % (words.stores, wrong))
    sys.exit(1 if wrong else 0)


if __name__ == "__main__":
    main()
