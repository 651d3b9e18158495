#!/usr/bin/env python3
"""Feeds a standby through real pipes, kills either side, and audits both stores. The gate runs it, in some seconds.

    examples/pipes.py PROGRAM

A store makes a backup, and goes on with commits. Its root tells how many there were, and names as many objects. What
`(cat base; brahma ship) | brahma standby` makes in another folder has to be that store behind all its commits. Where the sender is
killed at a random moment, or the stream is cut behind a random byte, it has to be the store behind some first commits, or the
standby tells that there is no whole base and leaves what it found. Where the standby is killed, its folder opens as before, to no store,
or to the new store. Both stores are audited each time. What is found otherwise is printed, and the status is then 1.
"""
import os
import random
import re
import shutil
import signal
import subprocess
import sys
import tempfile
import time

SLOTS = 14
COMMITS = 100
LINE = re.compile(rb"standby: batches ([0-9]+) stored( [0-9]+)+\n")
NO_BASE = re.compile(rb"refused: stream at [0-9]+\n")
SOUND = re.compile(rb"audit: pages [0-9]+ live [0-9]+ zero [0-9]+ differences 0\n")
NONE = (7, b"refused: no store\n")

# Reads the root and the objects that it names.
LOOK = b"64 begin\n64 get 0\n" + b"".join(b"64 read 0 %d 1\n64 get 1\n" % slot for slot in range(SLOTS)) + b"64 abort\n"


def commits(first, count):
    """Transactions that lay these numbers into the root, each with an object that has the number too, in the next slot."""
    return b"".join(b"1 begin\n1 set 0 %d\n1 make 1\n1 set 1 %d\n1 store 0 %d 1\n1 commit\n" % (number, number, number % SLOTS)
                    for number in range(first, first + count)) + b"gc all\n"


def told(output):
    """What a look tells of the root and the objects that it names, without their ids."""
    return re.findall(rb"^64 get: [0-9]+$", output, re.M)


def wanted(number):
    """What it tells behind so many commits."""
    held = {}
    for commit in range(1, number + 1):
        held[commit % SLOTS] = commit
    return [b"64 get: %d" % number] + [b"64 get: %d" % held[slot] for slot in range(SLOTS) if slot in held]


class Pipes:
    """The program, folders for two stores, and what was wrong so far."""

    def __init__(self, program, folder):
        self.program, self.folder = program, folder
        self.count, self.wrong = 0, 0
        self.base = os.path.join(folder, "base")

    def empty(self, name):
        """A folder of this name with nothing in it."""
        path = os.path.join(self.folder, name)
        shutil.rmtree(path, ignore_errors=True)
        os.mkdir(path)
        return path

    def run(self, where, words, text=b""):
        """The status and the output of a run in this folder."""
        self.count += 1
        done = subprocess.run([self.program, *words], input=text, stdout=subprocess.PIPE, stderr=subprocess.DEVNULL, timeout=60,
                              cwd=os.path.join(self.folder, where))
        return done.returncode, done.stdout

    def expect(self, what, right, found):
        """Prints what was found where it isn't right."""
        if not right:
            self.wrong += 1
            print("%s: found %r" % (what, found))

    def look(self, where):
        """The number of the last commit that a store has, with all that belongs to it; or how it isn't opened."""
        found = self.run(where, ["replay"], LOOK)
        if found[0] != 0:
            return found
        lines = told(found[1])
        number = int(lines[0].split()[2])
        self.expect("%s behind %d commits" % (where, number), lines == wanted(number), lines)
        audit = self.run(where, ["audit"])
        self.expect("%s, audit" % where, audit[0] == 0 and SOUND.fullmatch(audit[1]), audit)
        return number

    def feed(self, kills=None, after=0, bytes_through=None):
        """The status and the output of a standby that is fed by a shell's own pipe. The side that is told is killed after so many
        seconds; or so many bytes go through."""
        self.count += 1
        sender = 'cat "$1"; exec "$2" ship'
        send = subprocess.Popen(["sh", "-c", sender, "sh", self.base, self.program], cwd=os.path.join(self.folder, "primary"),
                                stdin=subprocess.DEVNULL, stdout=subprocess.PIPE, stderr=subprocess.DEVNULL)
        stream, cut = send.stdout, None
        if bytes_through is not None:
            cut = subprocess.Popen(["head", "-c", str(bytes_through)], stdin=stream, stdout=subprocess.PIPE)
            stream.close()
            stream = cut.stdout
        take = subprocess.Popen([self.program, "standby"], cwd=os.path.join(self.folder, "standby"), stdin=stream, stdout=subprocess.PIPE,
                                stderr=subprocess.DEVNULL)
        stream.close()
        if kills:
            time.sleep(after)
            {"sender": send, "standby": take}[kills].send_signal(signal.SIGKILL)
        output, _ = take.communicate(timeout=60)
        send.wait()
        if cut:
            cut.wait()
        return take.returncode, output

    def lay_old(self):
        """The standby's folder has a store of its own, behind no commit."""
        self.empty("standby")
        self.run("standby", ["init", "1"])


def whole(pipes):
    """Nothing is killed. How long it took."""
    for old in (False, True):
        if old:
            pipes.lay_old()
        else:
            pipes.empty("standby")
        began = time.monotonic()
        found = pipes.feed()
        took = time.monotonic() - began
        pipes.expect("standby", found[0] == 0 and LINE.fullmatch(found[1]), found)
        last = pipes.look("standby")
        pipes.expect("standby, last commit", last == pipes.last, last)
        again = pipes.look("primary")
        pipes.expect("primary, last commit", again == pipes.last, again)
    return took


def front(pipes, what, found):
    """The stream may have ended early: the standby has some first commits, or told that it got no whole base."""
    if found[0] == 3:
        pipes.expect(what, NO_BASE.fullmatch(found[1]), found)
        left = pipes.look("standby")
        pipes.expect(what + ", left", left == 0, left)
        return
    pipes.expect(what, found[0] == 0 and LINE.fullmatch(found[1]), found)
    last = pipes.look("standby")
    pipes.expect(what + ", last commit", isinstance(last, int) and pipes.first <= last <= pipes.last, last)


def main(words):
    program = os.path.abspath(words[0])
    draw = random.Random(7)
    folder = tempfile.mkdtemp(dir="/dev/shm" if os.path.isdir("/dev/shm") else None)
    try:
        pipes = Pipes(program, folder)
        pipes.empty("primary")
        pipes.run("primary", ["init", "64"])
        pipes.run("primary", ["replay"], commits(1, COMMITS))
        with open(pipes.base, "wb") as file:
            file.write(pipes.run("primary", ["backup"])[1])
        pipes.first, pipes.last = COMMITS, 20 * COMMITS
        for more in range(1, 20):
            # The last transaction of each run does not end, and is undone by the next one.
            pipes.run("primary", ["replay"], commits(more * COMMITS + 1, COMMITS) + b"2 begin\n2 set 0 7\n3 begin\n3 commit\n")
        took = whole(pipes)
        size = os.path.getsize(pipes.base) + max(os.path.getsize(os.path.join(folder, "primary", name)) for name in ("brahma.loga", "brahma.logb"))
        for _ in range(12):
            pipes.lay_old()
            front(pipes, "killed sender", pipes.feed("sender", draw.random() * took))
        for _ in range(12):
            pipes.lay_old()
            front(pipes, "cut stream", pipes.feed(bytes_through=draw.randrange(size)))
        for _ in range(12):
            pipes.lay_old()
            found = pipes.feed("standby", draw.random() * took)
            pipes.expect("killed standby", found[0] in (0, -signal.SIGKILL), found)
            left = pipes.look("standby")
            pipes.expect("killed standby, left", left in (0, NONE, pipes.last), left)
        last = pipes.look("primary")
        pipes.expect("primary at last", last == pipes.last, last)
        print("pipes: runs %d, different %d" % (pipes.count, pipes.wrong))
        return 1 if pipes.wrong else 0
    finally:
        shutil.rmtree(folder)


if __name__ == "__main__":
    sys.exit(main(sys.argv[1:]))
