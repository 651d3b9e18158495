"""What scripts of this folder share: a store's four files, runs of the program on them, and what a store holds.

It is imported, and does nothing by itself.
"""
import argparse
import os
import re
import shutil
import subprocess
import sys
import tempfile

HERE = os.path.dirname(os.path.abspath(__file__))
sys.path.insert(0, os.path.join(HERE, "..", "tools"))
sys.dont_write_bytecode = True
from stored import SLOTS
FILES = ("brahma.pages", "brahma.loga", "brahma.logb", "brahma.super")

# Each verb, a reply of each kind, every line of the collector and of upkeep, and losses of power.
SCRIPT = b"""# a comment

1 begin
1 begin
1 make 1
1 make 2
1 set 1 7
1 store 0 0 1
1 store 1 0 2
1 store 2 0 1
1 store 1 1 1
1 read 0 0 3
1 get 3
1 commit
2 begin
1 begin
1 set 0 5
2 set 0 6
2 get 5
2 undo
2 abort
1 undo
1 get 0
1 abort
3 commit
clean 0
turn
1 begin
turn
1 store 0 0 -
1 commit
gc step
gc step
gc all
1 begin
1 make 1
1 store 0 1 1
1 set 1 9
clean 1
1 commit
crash 3
gc all
turn
1 begin
1 make 1
1 make 1
1 make 1
1 abort
gc all
"""

# Calls of some clients.
GENERATED = ["gen", "--seed", "5", "--clients", "3", "--txns", "6"]

SOUND = re.compile(rb"audit: pages [0-9]+ live [0-9]+ zero [0-9]+ differences 0\n")

# What the transaction wrote that had not ended is undone by the next opening.
UNENDED = b"1 begin\n1 set 0 4\n1 make 1\n1 store 0 2 1\n2 begin\n2 commit\n"

# Reads the root and the objects that it names.
LOOK = b"64 begin\n64 get 0\n" + b"".join(b"64 read 0 %d 1\n64 get 1\n" % slot for slot in range(SLOTS)) + b"64 abort\ncrash 0\ngc all\n"


class Stores:
    """Runs of one program in a folder that has a store or none, with a library loaded before the C library's own where that is asked."""

    def __init__(self, program, folder, source):
        self.program, self.disk = program, os.path.join(folder, "disk")
        self.library = os.path.join(folder, "shim.so")
        code = os.path.join(folder, "shim.c")
        with open(code, "w") as file:
            file.write(source)
        subprocess.run(["cc", "-shared", "-fPIC", "-O1", "-o", self.library, code, "-ldl"], check=True)
        self.known = {}

    def run(self, words, text, **told):
        """The status and the output in the folder of the disk. The library is loaded where it is told anything."""
        env = dict(os.environ)
        if told:
            env.update(told, LD_PRELOAD=self.library)
        done = subprocess.run([self.program, *words], input=text, stdout=subprocess.PIPE, stderr=subprocess.PIPE, cwd=self.disk, env=env, timeout=60)
        return done.returncode, done.stdout

    def lay(self, areas):
        """Makes the folder anew with these files."""
        shutil.rmtree(self.disk, ignore_errors=True)
        os.mkdir(self.disk)
        for name, area in areas.items():
            with open(os.path.join(self.disk, name), "wb") as file:
                file.write(area)

    def held(self):
        """The files of the folder."""
        found = {}
        for name in FILES:
            path = os.path.join(self.disk, name)
            if os.path.exists(path):
                with open(path, "rb") as file:
                    found[name] = file.read()
        return found

    def made(self, areas, *runs):
        """The files behind these runs, each words and a text, on a store that was so."""
        self.lay(areas)
        for words, text in runs:
            self.run(words, text)
        return self.held()

    def seen(self, migrates=False):
        """What is reachable in the store of the folder, or how it is refused. It may be migrated first, or how that is refused."""
        if migrates:
            ended = self.run(["migrate"], b"")
            if ended[0] != 0:
                return ended
        return self.run(["replay"], LOOK)

    def seen_behind(self, areas, lines):
        """What is reachable behind these lines, on a store that was so."""
        key = (lines, *sorted(areas.items()))
        if key not in self.known:
            self.lay(areas)
            self.run(["replay"], lines)
            self.known[key] = self.seen()
        return self.known[key]

    def fault_of_audit(self):
        """What is wrong with the counts of the store of the folder, if anything."""
        status, output = self.run(["audit"], b"")
        return None if status == 0 and SOUND.fullmatch(output) else "audit: status %d with %r" % (status, output)


def on_stores(summary, source, use, *options):
    """Hands the words of the command and runs of the program in a folder in memory to a function, which tells how many runs were wrong."""
    words = argparse.ArgumentParser(description=summary)
    words.add_argument("--program", default=os.path.join(HERE, "..", "brahma"))
    words.add_argument("--short", action="store_true", help="tries some of the cases, in some seconds")
    for name, value in options:
        words.add_argument(name, type=int, default=value)
    words = words.parse_args()
    folder = tempfile.mkdtemp(dir="/dev/shm" if os.path.isdir("/dev/shm") else None)
    try:
        wrong = use(words, Stores(os.path.abspath(words.program), folder, source))
    finally:
        shutil.rmtree(folder)
    sys.exit(1 if wrong else 0)
