#!/usr/bin/env python3
"""Compares what brahma-dot reads from a store's files with what the program reads from the store.

  bench/drawn.py [PROGRAM] [STORES]

Stores are made by generated calls, with cleaned pages, checkpoints and transactions that have not ended among them. For each, the
program reads every slot and the payload of every object that the root reaches; it prints the stored ids, and counts by `audit`
the objects without a strong pointer. All of it has to be what tools/stored.py finds. The status is 1 where something differs.
"""
import os
import random
import subprocess
import sys
import tempfile

TOP = os.path.dirname(os.path.dirname(os.path.realpath(__file__)))
sys.path.insert(0, f"{TOP}/tools")
sys.dont_write_bytecode = True
from stored import ROOT, Store

UPKEEP = ("clean 0\nclean 3\n3 begin\n3 make 1\n3 store 0 1 1\n3 set 0 77\nclean 1\n", "turn\n", "")


def read_store():
    """The store of the current folder, undone as an opening would undo it; its lock is given back."""
    store = Store(".")
    store.lock.close()
    store.undo()
    return store


def paths_of(store):
    """The slots that lead from the root to each object that it reaches."""
    paths, row = {ROOT: []}, [ROOT]
    while row:
        found = [(of, slot, to) for of in row for slot, to, _ in store.pointers(of)]
        row = []
        for of, slot, to in found:
            if to not in paths:
                paths[to] = [*paths[of], slot]
                row.append(to)
    return paths


def script_of(store):
    """Lines that read each reached object, and what they are to print."""
    lines, wanted = ["1 begin"], ["1 begin: ok"]
    for of, path in paths_of(store).items():
        register, at = 0, ROOT
        for slot in path:
            to = 2 if register == 1 else 1
            at = store.cells[at].pointers[slot][0]
            lines.append(f"1 read {register} {slot} {to}")
            wanted.append(f"1 read: {at}")
            register = to
        for slot, (target, _) in enumerate(store.cells[of].pointers):
            lines.append(f"1 read {register} {slot} 7")
            wanted.append(f"1 read: {target}")
        lines.append(f"1 get {register}")
        wanted.append(f"1 get: {store.cells[of].payload}")
    return lines, [*wanted, "stored " + " ".join(map(str, store.live()))]


def weakly_held(store):
    """How many objects but the root have no strong pointer to them."""
    held = {to for of in store.live() for _, to, strong in store.pointers(of) if strong}
    return sum(of not in held for of in store.live() if of != ROOT)


def main(words):
    program = os.path.realpath(words[0]) if words else f"{TOP}/brahma"
    count, wrong = int(words[1]) if words[1:] else 40, 0

    def run(*named, script=""):
        return subprocess.run([program, *named], input=script, capture_output=True, text=True).stdout

    with tempfile.TemporaryDirectory() as folder:
        os.chdir(folder)
        for seed in range(count):
            random.seed(seed)
            run("init", str(random.randrange(1, 9)))
            for part in range(4):
                run("gen", "--seed", str(4 * seed + part), "--clients", "5", "--txns", "30")
                run("replay", script=random.choice(UPKEEP))
                store = read_store()
                lines, wanted = script_of(store)
                printed = run("replay", script="\n".join(lines) + "\n").split("\n")[:-1]
                audit = run("audit").split()
                if printed != wanted or audit[6] != str(weakly_held(store)):
                    wrong += 1
                    print(f"seed {seed}, part {part}: differs")
        os.chdir(TOP)
    print(f"stores: {4 * count}, different: {wrong}")
    return 1 if wrong else 0


if __name__ == "__main__":
    sys.exit(main(sys.argv[1:]))
