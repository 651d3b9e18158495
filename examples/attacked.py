"""What the attacks of outside.py share: a program, stores to run it on, and what is expected of a run.

It is imported, and does nothing by itself.
"""
import os
import re
import shutil
import subprocess

FILES = ("brahma.pages", "brahma.loga", "brahma.logb", "brahma.super")
MARK = "brahma.open"
DISK, OUTPUT, INPUT, REFUSED, USAGE = 6, 5, 4, 3, 2

# Makes two objects, with a checkpoint between them. The payload of the root tells the last commit.
FIRST = b"1 begin\n1 make 1\n1 store 0 0 1\n1 set 0 1\n1 commit\nturn\n1 begin\n1 make 1\n1 store 0 1 1\n1 set 0 2\n1 commit\n"
LOOK = b"64 begin\n64 get 0\n64 abort\n"

def one(number):
    """The lines of a transaction that lays this payload into the root."""
    return b"1 begin\n1 set 0 %d\n1 commit\n" % number


class Attacks:
    """The program, a folder for stores, and what was wrong so far."""

    def __init__(self, program, folder):
        self.program, self.folder, self.disk = program, folder, os.path.join(folder, "disk")
        self.count, self.wrong = 0, 0
        self.fresh()
        self.base = self.held()

    def fresh(self):
        """Makes the folder of the disk anew, with the store that each attack begins with."""
        shutil.rmtree(self.disk, ignore_errors=True)
        os.mkdir(self.disk)
        if self.count == 0:
            self.run(["init", "4"])
            self.run(["replay"], FIRST)
            return
        for name, area in self.base.items():
            self.put(name, area)

    def path(self, name):
        return os.path.join(self.disk, name)

    def put(self, name, area):
        with open(self.path(name), "wb") as file:
            file.write(area)

    def held(self):
        """The bytes of the four files."""
        found = {}
        for name in FILES:
            with open(self.path(name), "rb") as file:
                found[name] = file.read()
        return found

    def run(self, words, text=b"", before=(), **how):
        """The status and the output of a run, behind these words where there are some."""
        self.count += 1
        done = subprocess.run([*before, self.program, *words], input=text, stdout=subprocess.PIPE, stderr=subprocess.DEVNULL,
                              cwd=self.disk, timeout=60, check=False, **how)
        return done.returncode, done.stdout

    def hold(self, **how):
        """A run that has opened the store, and waits for its next line."""
        self.count += 1
        held = subprocess.Popen([self.program, "replay"], stdin=subprocess.PIPE, stdout=subprocess.PIPE, stderr=subprocess.DEVNULL,
                                cwd=self.disk, **how)
        self.tell(held, b"7 begin\n7 commit\n", 2)
        return held

    def tell(self, held, lines, answers):
        """Gives a run these lines. So many lines that it answers."""
        held.stdin.write(lines)
        held.stdin.flush()
        return b"".join(held.stdout.readline() for _ in range(answers))

    def end(self, held, lines=b""):
        """Gives a run its last lines. Its status and the rest of its output."""
        output, _ = held.communicate(lines, timeout=60)
        return held.returncode, output

    def expect(self, what, wanted, found):
        """Prints what was found where it isn't what is wanted."""
        if found != wanted:
            self.wrong += 1
            print("%s: wanted %r, found %r" % (what, wanted, found))

    def expect_refused(self, what, found):
        """The disk is refused."""
        self.expect(what, (DISK, b"refused: disk\n"), found)

    def last(self):
        """The payload of the root, or what an opening answers in place of it."""
        status, output = self.run(["replay"], LOOK)
        told = re.search(rb"^64 get: ([0-9]+)$", output, re.M)
        return int(told.group(1)) if status == 0 and told else (status, output)

    def expect_last(self, what, *numbers):
        """One of these commits is the last, and the counts of the store are right."""
        last = self.last()
        if last not in numbers:
            self.expect(what + ", read back", numbers, last)
        status, output = self.run(["audit"])
        if status != 0 or not output.endswith(b"differences 0\n"):
            self.expect(what + ", audit", 0, (status, output))

    def library(self, what, source):
        """The words that load this library before the C library's own, or none where there is no compiler."""
        if shutil.which("cc") is None:
            self.leave_out(what, "no C compiler")
            return None
        path = os.path.join(self.folder, "library.so")
        with open(path[:-2] + "c", "w") as file:
            file.write(source)
        subprocess.run(["cc", "-shared", "-fPIC", "-o", path, path[:-2] + "c", "-ldl"], check=True)
        return dict(os.environ, LD_PRELOAD=path)

    def leave_out(self, what, why):
        print("outside: left out, since this machine does not allow it: %s (%s)" % (what, why))


def run_of(numbers):
    """Transactions that lay these payloads into the root, each with some records more."""
    return b"".join(b"1 begin\n%s1 set 0 %d\n1 commit\n" % (b"1 set 0 9\n" * 20, number) for number in numbers)


def told(output):
    """How many of them were told as done, behind the two of the store."""
    return 2 + output.count(b"1 commit: ok\n")


def expect_limited(attacks, what, found, signals=()):
    """The run ended well, with the disk's status or by the signal. All that it told is there."""
    status, output = found
    if status != 0 and -status not in signals and (status != DISK or not output.endswith(b"refused: disk\n")):
        attacks.expect(what, DISK, found)
    attacks.expect_last(what, told(output), told(output) + 1)
