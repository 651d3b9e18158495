#!/usr/bin/env python3
"""Attacks the program from outside: its streams, its files, its lock, its limits and its disk. The gate runs it, in under a minute.

    examples/outside.py PROGRAM [ATTACK ...]

Each attack is made on a store of its own, whose last commits were answered `ok` and whose log is in its second area. The program has to
end with the status that docs/MANUAL.md names, or, under some limits, by the signal of the limit. Behind it, with the harm undone that
the attack did, the store has to open with all that was answered `ok`. (Where another program removed, moved, replaced or cut a file, only
what is answered then is looked at.) What else comes is printed, and the status is then 1. What the machine does not allow is left out, and
a line says so. At last bench/power_loss.py and bench/allocations.py are run in their short forms.
"""
import itertools
import os
import re
import resource
import shutil
import signal
import subprocess
import sys
import tempfile
import time

from attacked import DISK, FILES, INPUT, MARK, OUTPUT, REFUSED, USAGE, Attacks, expect_limited, one, run_of
from places import PAGE, places

HERE = os.path.dirname(os.path.abspath(__file__))
BENCH = os.path.join(HERE, "..", "bench")
GENERATED = ["gen", "--seed", "1", "--clients", "1", "--txns", "1"]
COMMANDS = (["init", "2"], ["replay"], ["run"], ["audit"], ["migrate"], ["backup"], ["ship"], ["log"], ["standby"], ["map"], GENERATED, ["nothing"])

# A copy of the process is made before its first data sync, and holds what it holds until it is ended.
FORKS = r"""
#define _GNU_SOURCE
#include <dlfcn.h>
#include <fcntl.h>
#include <stdio.h>
#include <unistd.h>
int fdatasync(int fd) {
    static int copied;
    if (!copied++) {
        pid_t child = fork();
        if (child == 0) {
            for (int stream = 0; stream < 3; stream++) close(stream);
            pause();
            _exit(0);
        }
        FILE *told = fopen("../copy", "w");
        fprintf(told, "%d", child);
        fclose(told);
    }
    return ((int (*)(int))dlsym(RTLD_NEXT, "fdatasync"))(fd);
}
"""

# Each read of the input gives one byte and each write of the output takes one, behind an interruption each. The calls that were not
# interrupted are traced. The one with the number that is told fails.
ASKS = r"""
#define _GNU_SOURCE
#include <dlfcn.h>
#include <errno.h>
#include <fcntl.h>
#include <stdlib.h>
#include <unistd.h>
static int trace = -1, interrupted;
static long calls, fails;
static ssize_t (*next_read)(int, void *, size_t);
static ssize_t (*next_write)(int, const void *, size_t);
__attribute__((constructor)) static void begin(void) {
    next_read = dlsym(RTLD_NEXT, "read");
    next_write = dlsym(RTLD_NEXT, "write");
    fails = atol(getenv("FAILS"));
    trace = open(getenv("TRACE"), O_WRONLY | O_CREAT | O_APPEND | O_CLOEXEC, 0600);
}
static int refused(const char *kind) {
    interrupted = !interrupted;
    if (!interrupted) next_write(trace, kind, 1);
    errno = interrupted ? EINTR : EIO;
    return interrupted || ++calls == fails;
}
ssize_t read(int fd, void *into, size_t length) {
    if (fd != 0) return next_read(fd, into, length);
    return refused("r") ? -1 : next_read(fd, into, length > 1 ? 1 : length);
}
ssize_t write(int fd, const void *bytes, size_t length) {
    if (fd != 1) return next_write(fd, bytes, length);
    return refused("w") ? -1 : next_write(fd, bytes, length > 1 ? 1 : length);
}
"""


def streams(attacks):
    """Each command with each choice of the standard streams closed."""
    for words in COMMANDS:
        for closed in itertools.chain.from_iterable(itertools.combinations(range(3), count) for count in range(4)):
            what = "%s, closed %s" % (words[0], closed)
            attacks.fresh()
            shut = " ".join("%d>&-" % stream for stream in closed)
            script = b"2 begin\n2 abort\n" if 0 not in closed else b""
            status, output = attacks.run(words, script, ["sh", "-c", 'exec "$@" ' + shut, "sh"])
            wanted = 0
            if words == ["nothing"]:
                wanted = USAGE
            elif words[0] in ("standby", "map"):
                # The script is no stream, and no line of a map. The last line of a refusal is told as far as it can be.
                wanted = INPUT if 0 in closed else REFUSED
            elif 0 in closed and words[0] in ("replay", "run"):
                wanted = INPUT
            elif 1 in closed:
                wanted = OUTPUT
            attacks.expect(what, wanted, status)
            if 1 in closed:
                attacks.expect(what + ", output", b"", output)
            elif wanted == INPUT:
                attacks.expect(what + ", output", b"refused: read\n", output)
            named = attacks.base["brahma.super"]
            # A backup makes a checkpoint, so that the log begins anew in the other area.
            names = {"init": b"\0", "backup": bytes(1 - it for it in named)}.get(words[0], named)
            attacks.expect(what + ", super area", names, attacks.held()["brahma.super"])
            if words[0] == "gen":
                attacks.expect(what + ", opens", 0, attacks.run(["replay"])[0])
            else:
                attacks.expect_last(what, 0 if words[0] == "init" else 2)
            attacks.expect(what + ", files", sorted(FILES), sorted(os.listdir(attacks.disk)))


def descriptors(attacks):
    """While a run waits, no file of the store has the descriptor of a stream, and each is closed at an exec."""
    for closed in ((), (1,), (2,), (1, 2)):
        attacks.fresh()
        shut = " ".join("%d>&-" % stream for stream in closed)
        attacks.count += 1
        held = subprocess.Popen(["sh", "-c", 'exec "$@" ' + shut, "sh", attacks.program, "replay"], stdin=subprocess.PIPE,
                                stdout=subprocess.DEVNULL, stderr=subprocess.DEVNULL, cwd=attacks.disk)
        found = {}
        until = time.time() + 20
        while len(found) < len(FILES) and time.time() < until:
            found = open_files(held.pid, attacks.disk)
            time.sleep(0.01)
        what = "descriptors, closed %s" % (closed,)
        attacks.expect(what, sorted(FILES), sorted(found))
        for name, (number, closes) in found.items():
            attacks.expect("%s: %s" % (what, name), (True, True), (number > 2, closes))
        attacks.expect(what + ", end", OUTPUT if 1 in closed else 0, attacks.end(held)[0])


def open_files(process, folder):
    """The files of the folder that a process has open: for each its descriptor, and whether it is closed at an exec."""
    found = {}
    try:
        for number in os.listdir("/proc/%d/fd" % process):
            path = os.readlink("/proc/%d/fd/%s" % (process, number))
            if os.path.dirname(path) == os.path.realpath(folder):
                with open("/proc/%d/fdinfo/%s" % (process, number)) as file:
                    flags = int(re.search(r"flags:\s*([0-7]+)", file.read()).group(1), 8)
                found[os.path.basename(path)] = (int(number), bool(flags & os.O_CLOEXEC))
    except FileNotFoundError:
        return {}
    return found


def locks(attacks):
    """Two runs on one store, in both orders, with the first one killed, and with a copy of it left."""
    attacks.fresh()
    first = attacks.hold()
    before = attacks.held()
    for words in (["init", "2"], ["replay"], ["run"], ["audit"], ["migrate"], ["backup"], ["ship"], ["log"], ["standby"], ["map"], GENERATED):
        attacks.expect_refused("%s beside a run" % words[0], attacks.run(words))
    attacks.expect("files beside a run", before, attacks.held())
    attacks.tell(first, one(3), 3)
    attacks.expect("first run", 0, attacks.end(first)[0])
    attacks.expect_last("two runs", 3)

    second = attacks.hold()
    attacks.expect_refused("the other order", attacks.run(["audit"]))
    attacks.expect("words without a command need no lock", USAGE, attacks.run(["nothing"])[0])
    attacks.expect("a commit of the second run", b"1 begin: ok\n1 set: ok\n1 commit: ok\n", attacks.tell(second, one(4), 3))
    second.kill()
    attacks.end(second)
    attacks.expect("mark of a killed run", True, os.path.exists(attacks.path(MARK)))
    # The run that finds the mark puts new files in the place of the old ones, and has the lock throughout.
    attacks.put("brahma.new", b"what a run that was cut off left")
    os.chmod(attacks.path("brahma.pages"), 0o640)
    nodes = [os.stat(attacks.path(name)).st_ino for name in FILES]
    third = attacks.hold()
    attacks.expect("new files", [], [name for name, node in zip(FILES, nodes) if os.stat(attacks.path(name)).st_ino == node])
    attacks.expect("rights of a new file", 0o640, os.stat(attacks.path("brahma.pages")).st_mode & 0o777)
    attacks.expect("files behind a killed run", sorted((*FILES, MARK)), sorted(os.listdir(attacks.disk)))
    attacks.expect_refused("behind a killed run", attacks.run(["audit"]))
    attacks.tell(third, one(5), 3)
    attacks.expect("run behind a killed run", 0, attacks.end(third)[0])
    attacks.expect("mark behind a good end", False, os.path.exists(attacks.path(MARK)))
    attacks.expect_last("a killed run", 5)


def many_at_once(attacks):
    """Runs that begin at the same time, on a store without the mark of a run and with one: each commits, or is refused."""
    for marked in (False, True):
        attacks.fresh()
        if marked:
            attacks.put(MARK, b"")
        done = 0
        # Each lays one object more into the root's chain.
        lines = b"1 begin\n1 make 1\n1 read 0 3 2\n1 store 1 0 2\n1 store 0 3 1\n1 commit\n"
        runs = [subprocess.Popen([attacks.program, "replay"], stdin=subprocess.PIPE, stdout=subprocess.PIPE, stderr=subprocess.DEVNULL,
                                 cwd=attacks.disk) for _ in range(12)]
        for run in runs:
            attacks.count += 1
            found = attacks.end(run, lines)
            if found[0] == 0:
                done += 1
            else:
                attacks.expect_refused("one of many runs", found)
        stored = attacks.run(["replay"])[1].split()[1:]
        attacks.expect("commits of many runs", 3 + done, len(stored))
        attacks.expect("some of many runs", True, done > 0)


def copies(attacks):
    """A copy by `fork` has the lock of the run that made it, until it ends."""
    loaded = attacks.library("a copy by fork", FORKS)
    if loaded is None:
        return
    attacks.fresh()
    status, _ = attacks.run(["replay"], one(3), env=loaded)
    attacks.expect("run that is copied", 0, status)
    with open(os.path.join(attacks.folder, "copy")) as file:
        copy = int(file.read())
    attacks.expect_refused("beside the copy", attacks.run(["replay"], one(4)))
    os.kill(copy, signal.SIGKILL)
    until = time.time() + 20
    while attacks.run(["audit"])[0] == DISK and time.time() < until:
        time.sleep(0.01)
    attacks.expect_last("a copy", 3)


def asked(attacks):
    """The system is asked for each byte of the input once, and for the end, and is given each byte of the output once. Where one of these
    calls fails, the status is that of the input or the output, and what was printed is a front of what is printed else."""
    loaded = attacks.library("each read and write of a stream", ASKS)
    if loaded is None:
        return
    loaded["TRACE"] = os.path.join(attacks.folder, "asked")
    script = one(3)
    attacks.fresh()
    wanted = attacks.run(["replay"], script)
    for fails in range(0, len(script) + 1 + len(wanted[1]) + 1, 9):
        attacks.fresh()
        if os.path.exists(loaded["TRACE"]):
            os.remove(loaded["TRACE"])
        status, output = attacks.run(["replay"], script, env=dict(loaded, FAILS=str(fails)))
        with open(loaded["TRACE"]) as file:
            calls = file.read()
        what = "stream call %d fails" % fails
        if fails == 0:
            attacks.expect("streams byte by byte", wanted, (status, output))
            attacks.expect("reads and writes", (len(script) + 1, len(wanted[1])), (calls.count("r"), calls.count("w")))
        elif calls[fails - 1] == "r":
            attacks.expect(what, (INPUT, True), (status, output.endswith(b"refused: read\n")))
            attacks.expect(what + ", front", True, wanted[1].startswith(output[: -len(b"refused: read\n")]))
        else:
            attacks.expect(what, (OUTPUT, True, fails), (status, wanted[1].startswith(output), len(calls)))
        attacks.expect_last(what, 2 + output.count(b"1 commit: ok\n"), 3)


def killed(attacks):
    """A run is killed behind so many commits that it told as done, wherever it is then."""
    for count in (1, 2, 5, 9, 14, 20):
        attacks.fresh()
        attacks.count += 1
        held = subprocess.Popen([attacks.program, "replay"], stdin=subprocess.PIPE, stdout=subprocess.PIPE, stderr=subprocess.DEVNULL,
                                cwd=attacks.disk)
        attacks.tell(held, b"".join(one(number) for number in range(3, 40)), 3 * count)
        held.kill()
        rest = attacks.end(held)[1]
        attacks.expect_last("killed behind %d commits" % count, *range(2 + count + rest.count(b"commit: ok\n"), 40))


def killed_map(attacks):
    """A run over a map is killed behind so many lines that it answered: the map has their pairs, or some more of those that were asked."""
    pairs = [(key, key + 7) for key in range(1, 10)]
    kept = [b"list:%s\nkeys %d\n" % (b"".join(b" %d=%d" % it for it in pairs[:count]), count) for count in range(10)]
    for count in (1, 3, 5, 8):
        attacks.fresh()
        attacks.count += 1
        held = subprocess.Popen([attacks.program, "map"], stdin=subprocess.PIPE, stdout=subprocess.PIPE, stderr=subprocess.DEVNULL, cwd=attacks.disk)
        attacks.tell(held, b"".join(b"put %d %d\n" % it for it in pairs), count)
        held.kill()
        least = count + attacks.end(held)[1].count(b"put: new\n")
        found = attacks.run(["map"], b"list\n")[1]
        attacks.expect("map killed behind %d lines, %r" % (count, found), True, found in kept[least:])
        attacks.expect_last("map killed behind %d lines" % count, 2)


def few_descriptors(attacks):
    """A limit on the number of open files, also where the output is closed."""
    for closes in (False, True):
        for count in range(4, 10):
            attacks.fresh()

            def limit(closes=closes, count=count):
                if closes:
                    os.close(1)
                resource.setrlimit(resource.RLIMIT_NOFILE, (count, count))

            found = attacks.run(["replay"], one(3), preexec_fn=limit)
            if closes:
                attacks.expect("%d open files and no output" % count, True, found in ((DISK, b""), (OUTPUT, b"")))
                attacks.expect_last("%d open files and no output" % count, 2)
            else:
                expect_limited(attacks, "%d open files" % count, found)


def odd_files(attacks):
    """A name is a link, a device, a pipe or a folder: the disk is refused, and what the link leads to stays."""
    for name in FILES:
        for kind in ("/dev/null", "/dev/full", "/dev/zero", "a file", "nothing", "a folder", "a pipe"):
            for words in (["replay"], ["init", "1"]):
                attacks.fresh()
                os.rename(attacks.path(name), attacks.path("kept"))
                if kind == "a folder":
                    os.mkdir(attacks.path(name))
                elif kind == "a pipe":
                    os.mkfifo(attacks.path(name))
                else:
                    os.symlink({"a file": "kept", "nothing": "nowhere"}.get(kind, kind), attacks.path(name))
                what = "%s is %s, %s" % (name, kind, words[0])
                attacks.expect_refused(what, attacks.run(words, one(3))[:2])
                with open(attacks.path("kept"), "rb") as file:
                    attacks.expect(what + ", the file", attacks.base[name], file.read())
                os.rename(attacks.path(name), attacks.path("odd"))
                os.rename(attacks.path("kept"), attacks.path(name))
                if words == ["replay"]:
                    attacks.expect_last(what, 2)


def rights(attacks):
    """There are no rights to one of the files, or none to make one in the folder."""
    before, open_to = [], attacks.disk
    if os.getuid() == 0:
        if shutil.which("setpriv") is None:
            attacks.leave_out("no rights", "no setpriv")
            return
        before = ["setpriv", "--reuid=65534", "--regid=65534", "--clear-groups"]
        # The program is copied to where anybody may run it.
        os.chmod(attacks.folder, 0o755)
        shutil.copy(attacks.program, os.path.join(attacks.folder, "program"))
        os.chmod(os.path.join(attacks.folder, "program"), 0o755)
    own, attacks.program = attacks.program, os.path.join(attacks.folder, "program") if before else attacks.program
    try:
        for name in (*FILES, None):
            attacks.fresh()
            for each in FILES:
                os.chmod(attacks.path(each), 0o666)
            os.chmod(open_to, 0o777)
            os.chmod(attacks.path(name) if name else open_to, 0o000 if name else 0o555)
            what = "no rights to %s" % (name or "the folder")
            attacks.expect_refused(what, attacks.run(["replay"], one(3), before))
            os.chmod(attacks.path(name) if name else open_to, 0o777)
            attacks.expect_last(what, 2)
    finally:
        attacks.program = own


def moved_files(attacks):
    """What another program does to the files while a run has them: no commit behind it is told as done unless it is there."""
    done = b"1 begin: ok\n1 set: ok\n1 commit: ok\n"
    attacks.fresh()
    held = attacks.hold()
    other = os.path.join(attacks.folder, "other")
    shutil.rmtree(other, ignore_errors=True)
    os.rename(attacks.disk, other)
    attacks.expect("the folder is renamed", done, attacks.tell(held, one(3), 3))
    attacks.expect("the folder is renamed, end", 0, attacks.end(held)[0])
    os.rename(other, attacks.disk)
    attacks.expect_last("the folder is renamed", 3)

    def replace(name):
        with open(attacks.path("new"), "wb") as file:
            file.write(attacks.base[name])
        os.replace(attacks.path("new"), attacks.path(name))

    log = "brahma.logb"
    for what, harm in (
        ("the folder is removed", lambda: shutil.rmtree(attacks.disk)),
        ("the log is removed", lambda: os.remove(attacks.path(log))),
        ("the log is moved", lambda: os.rename(attacks.path(log), attacks.path("kept"))),
        ("the log is replaced", lambda: replace(log)),
        ("the log is cut", lambda: os.truncate(attacks.path(log), 3)),
        ("the log is emptied", lambda: os.truncate(attacks.path(log), 0)),
        ("the log is lengthened", lambda: os.truncate(attacks.path(log), 5000)),
    ):
        attacks.fresh()
        held = attacks.hold()
        harm()
        attacks.expect(what, (DISK, b"1 begin: ok\n1 set: ok\n1 commit: fault\nrefused: disk\n"), attacks.end(held, one(3)))


def file_sizes(attacks):
    """A limit on the size of a file, which is answered as an error, or kills by a signal."""
    numbers = run_of(range(3, 12))
    for ignores in (True, False):
        for size in (0, 1, 9, 10, 300, PAGE - 1, PAGE, 2000, 2700, 4 * PAGE, 6000):
            attacks.fresh()

            def limit(size=size, ignores=ignores):
                signal.signal(signal.SIGXFSZ, signal.SIG_IGN if ignores else signal.SIG_DFL)
                resource.setrlimit(resource.RLIMIT_FSIZE, (size, size))

            found = attacks.run(["replay"], numbers, preexec_fn=limit, restore_signals=not ignores)
            expect_limited(attacks, "files of %d bytes at most" % size, found, () if ignores else (signal.SIGXFSZ,))


def stacks(attacks):
    """A limit on the stack: the run ends well, or by a signal before it tells anything that isn't there."""
    for size in (16, 64, 128, 256, 1024):
        for words in (["replay"], ["run"]):
            attacks.fresh()

            def limit(size=size):
                resource.setrlimit(resource.RLIMIT_STACK, (size * 1024, size * 1024))

            found = attacks.run(words, run_of(range(3, 6)), preexec_fn=limit)
            expect_limited(attacks, "%s with a stack of %d kilobytes" % (words[0], size), found, (signal.SIGSEGV, signal.SIGKILL, signal.SIGABRT))


def full_disks(attacks):
    """A file system in memory with room for so many pages of 4,096 bytes more."""
    at = os.path.join(attacks.folder, "small")
    os.mkdir(at)
    if subprocess.run(["mount", "-t", "tmpfs", "-o", "size=256k", "none", at], stderr=subprocess.DEVNULL, check=False).returncode != 0:
        attacks.leave_out("a full device", "no mounts")
        return
    own, attacks.disk = attacks.disk, os.path.join(at, "disk")
    try:
        for room in range(6):
            for words, text in ((["replay"], run_of(range(3, 40))), (["init", "30"], b"")):
                attacks.fresh()
                fill(os.path.join(at, "filler"), room)
                found = attacks.run(words, text)
                os.remove(os.path.join(at, "filler"))
                what = "%s with room for %d pages" % (words[0], room)
                if words == ["replay"]:
                    expect_limited(attacks, what, found)
                elif found != (0, b"pages 30\n"):
                    attacks.expect_refused(what, found)
    finally:
        attacks.disk = own
        subprocess.run(["umount", at], check=True)


def fill(path, room):
    """Fills the file system of this path but for so many pages."""
    with open(path, "wb", buffering=0) as file:
        try:
            while file.write(bytes(4096)) == 4096:
                pass
        except OSError:
            pass
        file.truncate(file.tell() // 4096 * 4096 - room * 4096)


def broken_pipes(attacks):
    """Nobody reads the output any more: a write fails where the signal is ignored, and else the signal ends the run."""
    for ignores in (True, False):
        attacks.fresh()
        attacks.count += 1
        reading, writing = os.pipe()
        os.close(reading)
        done = subprocess.run([attacks.program, "replay"], input=one(3), stdout=writing, stderr=subprocess.DEVNULL, cwd=attacks.disk,
                              restore_signals=not ignores, timeout=60, check=False)
        os.close(writing)
        attacks.expect("a pipe that nobody reads", OUTPUT, done.returncode) if ignores or done.returncode != -signal.SIGPIPE else None
        attacks.expect_last("a pipe that nobody reads", 2, 3)


def benches(attacks):
    """The short forms of the programs that lose power and refuse memory. Each tells what is wrong by its status."""
    if shutil.which("cc") is None:
        attacks.leave_out("losses of power and refused memory", "no C compiler")
        return
    for name in ("power_loss.py", "allocations.py"):
        attacks.count += 1
        done = subprocess.run([sys.executable, "-B", os.path.join(BENCH, name), "--short", "--program", attacks.program],
                              stdout=subprocess.PIPE, stderr=subprocess.STDOUT, check=False)
        if done.returncode != 0:
            attacks.wrong += 1
            print("%s:\n%s" % (name, done.stdout.decode(errors="replace")))


ALL = (streams, descriptors, places, asked, locks, killed, killed_map, many_at_once, copies, few_descriptors, odd_files, rights, moved_files, file_sizes, stacks, full_disks, broken_pipes, benches)


def in_memory():
    """The folder of a file system in memory from which programs may be run, where there is one."""
    path = "/dev/shm"
    return path if os.path.isdir(path) and not os.statvfs(path).f_flag & os.ST_NOEXEC else None


def main():
    program = os.path.abspath(sys.argv[1])
    # Further words name some of the attacks, for a run by hand.
    only = sys.argv[2:]
    folder = tempfile.mkdtemp(dir=in_memory())
    attacks = Attacks(program, folder)
    try:
        for attack in ALL:
            if not only or attack.__name__ in only:
                began = time.time()
                attack(attacks)
                if only:
                    print("%s: %.1f s" % (attack.__name__, time.time() - began))
    finally:
        shutil.rmtree(folder, ignore_errors=True)
    print("outside: %d runs, wrong: %d" % (attacks.count, attacks.wrong))
    sys.exit(1 if attacks.wrong else 0)


if __name__ == "__main__":
    main()
