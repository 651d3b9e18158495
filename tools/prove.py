#!/usr/bin/env python3
"""Proves the program's crates and builds the program: crates/brahma/out/brahma.

Crates that don't depend on each other are proved side by side. Two runs of the toolchain's command in one copy of the
repository wait for each other where they stand on the same library, so each lane but the first works in a copy of its own,
build/lanes/N. A library that one lane has built is laid into the others by hard links.

How far it is, it tells on standard error. Each crate's log is build/logs/NAME. The status is 0 where the program was built.
"""
import os
import re
import shutil
import subprocess
import sys
import threading
import time

TOP = os.path.dirname(os.path.dirname(os.path.realpath(__file__)))
LOGS = f"{TOP}/build/logs"
PROGRAM = "brahma"

# What one lane may take of memory, in bytes.
LANE = 5_000_000_000

# What one copy of a proof takes of memory, in bytes: so much, and so much for each crate below.
COPY, COPY_BELOW = 1_000_000_000, 40_000_000

# The lines from which a proof gets twice as many copies. They wait for each other now and then, so with more of them than processors less
# time is lost over a function that takes long. Each copy begins with the reading of what its functions name, which takes up to half a minute of a
# processor's time. So a proof has few where other crates can use the processors.
LONG = 10_000

# What was measured of four processors: lines of source, definitions and proofs that are proved in a second.
LINES_A_SECOND = 60

# A crate that is done sooner was not proved anew, and tells nothing of the speed.
KEPT_SECONDS = 5


def listed():
    """The crates that each crate of the repository names, by crates.txt."""
    found = {}
    with open(f"{TOP}/crates.txt", encoding="utf-8") as lines:
        for line in lines:
            name, colon, names = line.partition(":")
            if colon and not name.startswith("#"):
                found[name.split()[0]] = names.split()
    return {name: [it for it in names if it in found] for name, names in found.items()}


def below(crates, name):
    """The crates that this one stands on, and itself."""
    found = {name}
    for it in crates[name]:
        found |= below(crates, it)
    return found


def files_of(folder):
    """The files of a crate, or of the repository's list, by their paths below it; what the toolchain made is left out."""
    found = {}
    for at, folders, names in os.walk(folder):
        folders[:] = [it for it in folders if not (at == folder and it == "out")]
        found.update({os.path.relpath(f"{at}/{it}", folder): f"{at}/{it}" for it in names})
    return found


def lines_of(name):
    """How many lines a crate has, which tells about how long its proof takes."""
    count = 0
    for short, path in files_of(f"{TOP}/crates/{name}").items():
        if short.split("/")[0] in ("src", "specs", "proofs"):
            with open(path, "rb") as it:
                count += it.read().count(b"\n")
    return count


def mirror(source, target):
    """Makes the files below target those below source; what the toolchain made there stays."""
    wanted, there = files_of(source), files_of(target) if os.path.isdir(target) else {}
    for short in there.keys() - wanted.keys():
        os.remove(there[short])
    for short, path in wanted.items():
        of, to = os.stat(path), f"{target}/{short}"
        if short in there and (of.st_size, of.st_mtime_ns) == (os.stat(to).st_size, os.stat(to).st_mtime_ns):
            continue
        os.makedirs(os.path.dirname(to), exist_ok=True)
        shutil.copy2(path, to)


def link(one, other):
    try:
        os.link(one, other)
    except OSError:
        shutil.copy2(one, other)


def give(name, source, target):
    """Lays the library that the crate has in one lane into another."""
    made, to = f"{source}/crates/{name}/out/rlib", f"{target}/crates/{name}/out/rlib"
    shutil.rmtree(to, ignore_errors=True)
    shutil.copytree(made, to, copy_function=link)


def memory():
    """The memory that is free, in bytes."""
    with open("/proc/meminfo", encoding="utf-8") as it:
        return 1024 * int(re.search(r"MemAvailable:\s+(\d+)", it.read())[1])


def processors():
    """How many processors are used."""
    return min(len(os.sched_getaffinity(0)), 4)


def copies(lines, below, share):
    """How many copies the proof of a crate of so many lines may have, which stands on so many others and has this share of the processors."""
    wanted = 2 * share if lines > LONG else share
    return max(1, min(wanted, memory() // (COPY + COPY_BELOW * below)))


def lanes_wanted():
    return max(1, min(processors(), memory() // LANE))


class Proof:
    """What is done and what is left, under one lock."""

    def __init__(self, crates):
        self.crates, self.lines = crates, {it: lines_of(it) for it in crates}
        self.done, self.running, self.failed = set(), {}, None
        self.proved, self.began = 0, time.monotonic()
        self.turn, self.chains = threading.Condition(), {}

    def chain(self, name):
        """The lines of the longest chain of crates that wait for this one."""
        if name not in self.chains:
            above = [self.chain(it) for it in self.crates if name in self.crates[it]]
            self.chains[name] = self.lines[name] + max(above, default=0)
        return self.chains[name]

    def take(self, lane):
        """The next crate for this lane, or None where nothing is left for it."""
        with self.turn:
            while True:
                waiting = [it for it in self.crates if it not in self.done and it not in self.running]
                ready = [it for it in waiting if self.done.issuperset(self.crates[it])]
                if self.failed or not waiting:
                    return None
                if ready:
                    name = max(ready, key=self.chain)
                    self.running[name] = time.monotonic()
                    return name
                self.turn.wait()

    def copies(self, name):
        """How many copies the proof of this crate gets: its share of the processors beside what runs and what could run now. The crate for
        which most work waits has two of them at least."""
        with self.turn:
            others = [it for it in self.crates if it not in self.done and it != name and self.done.issuperset(self.crates[it])]
            is_first = all(self.chain(it) <= self.chain(name) for it in self.running)
        share = max(processors() // (1 + len(others)), 2 if is_first else 1)
        if not is_first and share == 1:
            return 1
        return copies(self.lines[name], len(below(self.crates, name)) - 1, share)

    def put(self, name, is_done):
        with self.turn:
            seconds = time.monotonic() - self.running.pop(name)
            if not is_done:
                self.failed = self.failed or name
            else:
                self.done.add(name)
                self.proved += self.lines[name] if seconds > KEPT_SECONDS else 0
            self.turn.notify_all()

    def part(self, name):
        """Which part of a running crate is proved, by its log, and that log's last numbers."""
        with open(f"{LOGS}/{name}", encoding="utf-8", errors="replace") as it:
            found = re.findall(r"^so far: (\d+) of (\d+) functions checked", it.read(), re.M)
        if not found or int(found[-1][1]) == 0:
            return 0, f"{name} begins"
        return int(found[-1][0]) / int(found[-1][1]), f"{name} {found[-1][0]} of {found[-1][1]} functions"

    def tell(self):
        """One line of how far the proof is."""
        with self.turn:
            running, done, proved = list(self.running), len(self.done), self.proved
            left = sum(self.lines[it] for it in self.crates if it not in self.done)
        parts = {it: self.part(it) for it in running}
        half = sum(self.lines[it] * part for it, (part, _) in parts.items())
        seconds = time.monotonic() - self.began
        # A first guess counts as much as the first five minutes.
        speed = (300 * LINES_A_SECOND + proved + half) / (300 + seconds)
        minutes = round((left - half) / speed / 60)
        words = [f"{done} of {len(self.crates)} crates proved", *[text for _, text in parts.values()]]
        return f"brahma: {', '.join(words)}; about {max(minutes, 1)} min left"


def work(proof, lanes, lane):
    """Proves crates in a lane, until none is left."""
    while name := proof.take(lane):
        with open(f"{LOGS}/{name}", "w", encoding="utf-8") as log:
            how = {"stdin": subprocess.DEVNULL, "stdout": log, "stderr": subprocess.STDOUT}
            words = ["rt", "lib", "--jobs", str(proof.copies(name))]
            status = subprocess.run(words, cwd=f"{lane}/crates/{name}", **how).returncode
        if not status:
            for it in lanes:
                if it != lane:
                    give(name, lane, it)
        proof.put(name, not status)


def watch(proof, ends):
    """Tells how far the proof is, each time that this changed, until it has ended."""
    told = None
    while not ends.wait(20):
        now = proof.tell()
        if now != told:
            print(now, file=sys.stderr, flush=True)
            told = now


def prove(crates):
    """Proves the libraries below the program, and answers whether it could."""
    lanes = [TOP, *[f"{TOP}/build/lanes/{it}" for it in range(1, lanes_wanted())]]
    for lane in lanes[1:]:
        for short in ("crates.txt", "HANDLES"):
            os.makedirs(lane, exist_ok=True)
            shutil.copy2(f"{TOP}/{short}", f"{lane}/{short}")
        for it in listed():
            mirror(f"{TOP}/crates/{it}", f"{lane}/crates/{it}")
    proof, ends = Proof(crates), threading.Event()
    threads = [threading.Thread(target=work, args=(proof, lanes, it)) for it in lanes]
    watcher = threading.Thread(target=watch, args=(proof, ends))
    for it in [*threads, watcher]:
        it.start()
    for it in threads:
        it.join()
    ends.set()
    watcher.join()
    if proof.failed:
        with open(f"{LOGS}/{proof.failed}", encoding="utf-8", errors="replace") as it:
            print(it.read(), end="", file=sys.stderr)
        print(f"brahma: {proof.failed} is not proved", file=sys.stderr)
    return not proof.failed


def main():
    began, crates = time.time(), listed()
    os.makedirs(LOGS, exist_ok=True)
    wanted = below(crates, PROGRAM) - {PROGRAM}
    if not prove({it: crates[it] for it in crates if it in wanted}):
        return 1
    made = f"{TOP}/crates/{PROGRAM}/out/{PROGRAM}"
    with open(f"{LOGS}/{PROGRAM}", "w", encoding="utf-8") as log:
        # It is run without words, which have no reading: it touches no file, and its status is 2.
        how = {"stdin": subprocess.DEVNULL, "stdout": log, "stderr": subprocess.STDOUT}
        subprocess.run(["rt", "run", "--"], cwd=f"{TOP}/crates/{PROGRAM}", **how)
    if not os.path.exists(made) or os.stat(made).st_mtime < began:
        with open(f"{LOGS}/{PROGRAM}", encoding="utf-8", errors="replace") as it:
            print(it.read(), end="", file=sys.stderr)
        return 1
    # What the program was built from; a change of it asks for a new build.
    with open(f"{TOP}/build/sources", "w", encoding="utf-8") as it:
        it.writelines(f"{name}\n" for name in ("crates.txt", "HANDLES"))
        for name in sorted(wanted | {PROGRAM}):
            folders = [f"crates/{name}/{part}" for part in ("src", "specs", "proofs")]
            it.writelines(f"{folder}\n" for folder in folders if os.path.isdir(f"{TOP}/{folder}"))
    return 0


if __name__ == "__main__":
    sys.exit(main())
