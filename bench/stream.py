#!/usr/bin/env python3
"""Times what reads or writes a store's log as a stream, as a Markdown table. It is run by hand, on a quiet machine, and is no part of the
gate. It takes a C compiler.

    bench/stream.py [--program PATH] [--megabytes N] [--runs N]

A store's log is made of so many megabytes, 128 without it, and then of two and four times as many. It is what the program writes for a
script that makes an object, links it, writes payloads, cuts the object off again and collects it, over and over. The program does the
script some thousand times. What it logged after the first half is then repeated in the file, since the store is there as it was before.
The program has to open the shortest of these logs, and to find no difference in it.

On each log these commands are timed, those of them that the program has: `ship`, whose output is read by a program that only sums its
bytes; `standby` and `check`, which get the base that `backup` wrote and the log after it through `cat`; and `log`, whose output is let
go. `backup` itself is timed at last, since it makes the log begin anew. Each is run so many times, 3 without it, and the least wall time
counts. Plain is the time of the summing program on the same bytes through `cat`. Share is the speed in parts of the plain speed. Memory
is the most that the command had. Behind the rows of a command stand the exponents of the growth of its time: 1 is growth in proportion.
"""
import argparse
import math
import os
import shutil
import subprocess
import sys
import tempfile
import time

HERE = os.path.dirname(os.path.abspath(__file__))

# Reads its input to the end, and prints how many bytes it has and their sum.
SUMS = r"""
#include <stdio.h>
#include <unistd.h>
int main(void) {
    static unsigned char piece[65536];
    unsigned long long count = 0, sum = 0;
    for (;;) {
        ssize_t length = read(0, piece, sizeof piece);
        if (length <= 0) break;
        for (ssize_t at = 0; at < length; at++) sum += piece[at];
        count += length;
    }
    printf("%llu %llu\n", count, sum);
    return 0;
}
"""

PIECE = ("1 begin\n1 make 1\n1 set 1 7\n1 store 0 3 1\n1 store 1 0 0\n1 set 0 5\n1 commit\n"
         "1 begin\n1 set 0 0\n1 store 0 3 -\n1 commit\ngc all\n").encode()

AREAS = ("brahma.loga", "brahma.logb")


class Streams:
    """The program, a folder for its store, and the program that sums bytes."""

    def __init__(self, program, folder):
        self.program, self.folder, self.disk = program, folder, os.path.join(folder, "disk")
        self.sums = os.path.join(folder, "sums")
        with open(self.sums + ".c", "w") as file:
            file.write(SUMS)
        subprocess.run(["cc", "-O2", "-o", self.sums, self.sums + ".c"], check=True)

    def path(self, name):
        return os.path.join(self.folder, name)

    def empty(self, name):
        """A folder of this name with nothing in it."""
        shutil.rmtree(self.path(name), ignore_errors=True)
        os.mkdir(self.path(name))
        return self.path(name)

    def run(self, words, text=b""):
        """What a run in the store's folder prints. It has to end well."""
        done = subprocess.run([self.program, *words], input=text, stdout=subprocess.PIPE, stderr=subprocess.PIPE, cwd=self.disk)
        if done.returncode != 0:
            sys.exit("status %d of %s: %r" % (done.returncode, " ".join(words), done.stderr[-200:]))
        return done.stdout

    def has(self, word):
        """The program has this command: it doesn't print `usage` for it, in an empty folder and with an empty input."""
        done = subprocess.run([self.program, word], input=b"", stdout=subprocess.PIPE, stderr=subprocess.DEVNULL, cwd=self.empty("none"))
        return done.stdout != b"usage\n"

    def current(self):
        """The file of the store's current log."""
        with open(os.path.join(self.disk, "brahma.super"), "rb") as file:
            return os.path.join(self.disk, AREAS[file.read(1)[0] % 2])

    def make(self, pages):
        """Makes the store and its base, and hands out the front of its log and the part that may be repeated."""
        self.empty("disk")
        self.run(["init", str(pages)])
        with open(self.path("base"), "wb") as file:
            file.write(self.run(["backup"]))
        logs = []
        for _ in range(2):
            self.run(["replay"], PIECE * 2000)
            with open(self.current(), "rb") as file:
                logs.append(file.read())
        front = logs[0][:-1]
        if not logs[1].startswith(front):
            sys.exit("the log did not go on")
        return front, logs[1][len(front):-1]

    def lengthen(self, front, part, length):
        """Gives the store a log of so many bytes, a few more or less."""
        times = max(1, (length - len(front)) // len(part))
        with open(self.current(), "wb") as file:
            file.write(front)
            for _ in range(times):
                file.write(part)
            file.write(b"\0")
        return len(front) + times * len(part) + 1

    def time(self, words, cwd, stdin=None, reader=None):
        """The wall time of a run, fed by `cat` where files are told, with a reader of its output where one is given; its memory in megabytes, and its output."""
        began = time.monotonic()
        first = subprocess.Popen(["cat", *stdin], stdout=subprocess.PIPE) if stdin else None
        done = subprocess.Popen(words, stdin=first.stdout if first else subprocess.DEVNULL, stdout=subprocess.PIPE if reader != "none" else subprocess.DEVNULL,
                                stderr=subprocess.DEVNULL, cwd=cwd)
        if first:
            first.stdout.close()
        last = None
        if reader not in (None, "none"):
            last = subprocess.Popen([reader], stdin=done.stdout, stdout=subprocess.PIPE)
            done.stdout.close()
        output = (last or done).stdout.read() if reader != "none" else b""
        _, status, used = os.wait4(done.pid, 0)
        took = time.monotonic() - began
        done.returncode = os.waitstatus_to_exitcode(status)
        for other in (first, last):
            if other:
                other.wait()
        if done.returncode != 0:
            sys.exit("status %d of %s with %r" % (done.returncode, " ".join(words), output[-200:]))
        return took, used.ru_maxrss / 1024, output

    def least(self, runs, prepare, *how, **more):
        """The least time of so many runs, each after what prepares it; the most memory, and the last output."""
        best, most, output = None, 0, b""
        for _ in range(runs):
            prepare()
            took, memory, output = self.time(*how, **more)
            best, most = took if best is None else min(best, took), max(most, memory)
        return best, most, output


def rows(streams, runs, length, commands):
    """Times each of the commands on the store's log. Each row: the command, its time, the plain time, and its memory."""
    log, base = streams.current(), streams.path("base")
    shipped = streams.path("shipped")
    nothing = lambda: None
    plain, _, summed = streams.least(runs, nothing, [streams.sums], streams.folder, stdin=[log])
    found = {}
    if "ship" in commands:
        took, memory, output = streams.least(runs, nothing, [streams.program, "ship"], streams.disk, reader=streams.sums)
        if output != summed:
            sys.exit("ship wrote otherwise: %r, wanted %r" % (output, summed))
        found["ship"] = took, plain, memory
    shutil.copyfile(log, shipped)
    whole, _, _ = streams.least(runs, nothing, [streams.sums], streams.folder, stdin=[base, shipped])
    for word in ("standby", "check"):
        if word in commands:
            took, memory, output = streams.least(runs, lambda: streams.empty("other"), [streams.program, word], streams.path("other"), stdin=[base, shipped])
            print("<!-- %s: %s -->" % (word, output.decode(errors="replace").strip()[:100]), file=sys.stderr)
            found[word] = took, whole, memory
    os.remove(shipped)
    if "log" in commands:
        took, memory, _ = streams.least(runs, nothing, [streams.program, "log"], streams.disk, reader="none")
        found["log"] = took, plain, memory
    if "backup" in commands:
        took, memory, output = streams.least(1, nothing, [streams.program, "backup"], streams.disk)
        found["backup"] = took, plain, memory
    return [(word, length, *found[word]) for word in commands if word in found]


def main():
    words = argparse.ArgumentParser(description=__doc__.split("\n")[0])
    words.add_argument("--program", default=os.path.join(HERE, "..", "brahma"))
    words.add_argument("--megabytes", type=int, default=128)
    words.add_argument("--pages", type=int, default=64)
    words.add_argument("--runs", type=int, default=3)
    words = words.parse_args()
    folder = tempfile.mkdtemp(dir="/dev/shm" if os.path.isdir("/dev/shm") else None)
    try:
        streams = Streams(os.path.abspath(words.program), folder)
        commands = [word for word in ("ship", "standby", "check", "log", "backup") if streams.has(word)]
        all_rows = []
        for times in (1, 2, 4):
            front, part = streams.make(words.pages)
            length = streams.lengthen(front, part, times * words.megabytes * 2 ** 20)
            if times == 1:
                audit = streams.run(["audit"])
                if not audit.endswith(b"differences 0\n"):
                    sys.exit("audit: %r" % audit)
            all_rows += rows(streams, words.runs, length, commands)
        print("Wall times in seconds, lengths and memory in megabytes, speeds in megabytes a second.\n")
        print("| Command | Length | Time | Speed | Plain speed | Share | Memory | Growth |")
        print("|---|---|---|---|---|---|---|---|")
        for word in commands:
            own, before = [row for row in all_rows if row[0] == word], None
            for _, length, took, plain, memory in own:
                growth = "" if before is None else "%.2f" % math.log(took / before[1], length / before[0])
                size = length / 2 ** 20
                print("| %s | %.0f | %.2f | %.0f | %.0f | %.2f | %.1f | %s |" % (word, size, took, size / took, size / plain, plain / took, memory, growth))
                before = length, took
    finally:
        shutil.rmtree(folder)


if __name__ == "__main__":
    main()
