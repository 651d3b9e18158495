#!/usr/bin/env python3
"""Loses power at each disk call of the program, and lets each one fail. In its short form, with some of the calls, the gate runs it.

    bench/power_loss.py [--short] [--losses N] [--scripts M] [--seed S] [--program PATH]

A library that is loaded before the C library's own keeps a trace of the calls that the program makes on the four files, on a new file that
is to take the place of one of them, and on their folder: reads, writes, cuts, syncs, new names and removals. It ends the program at the Kth
of them, for K from 1 on until the program ends by itself: while a store is made from nothing and over another one, while a script is
replayed that has every line, while a store is opened whose last transactions had not ended, while one is opened on which another run did
not end well, while an audit or a backup is made, while a store of version 1 is migrated, and one of version 2, while lines are done in the
map of a store, while a client works on a thread, while generated calls are done, and while M (five, without it) scripts are replayed that
are drawn as those of damage.py are.

From the trace N (ten, without it) contents of the four files are drawn as a power loss at that call may leave them. What the last sync of a
file made last is there. Of the writes and cuts after it, and of the call at which power was lost, each is done, not done or done in part,
or anything is in its range. Each such store has to open to the effect of the commits that were answered, or of these and the one that was
under way, with counts that are right; after `init` there may be what was there before, no store, or a fresh one. (A client on a thread has
its lines printed at the end, so some first ones of its commits have to be there; after generated calls only the counts are looked at.
Behind a migration that lost power another one is made first.)

Then the Kth call fails once in place of a loss of power, and the program goes on: it has to end with status 6, with the lines that it had
written until then, `fault` for a commit that failed, and `refused: disk`. What it leaves, and what a power loss may leave after it, has to
open in the same way.

Each sync is also let fail so that the system keeps in memory what was to last by it, and counts it as written, so that no later sync writes
it. The next run reads it, and goes on. When power is then lost, all that this run told as done has to be there. (Where the mark that the
first run left is removed before, something has to be missing, or these runs would tell nothing.)

And at last each call is interrupted once and each read and write goes a few bytes at a time, which may change nothing.

Without any of this each run has to end with status 0, and to have such calls. What else comes is printed with its K, and the status is then
1.
"""
import os
import random
import re

import damage
import stores
from folders import FOLDER, MARK, SPARE_NAME, SYNC, Folder
from versions import of_version_1

SHIM = r"""
#define _GNU_SOURCE
#include <dlfcn.h>
#include <errno.h>
#include <stdint.h>
#include <stdlib.h>
#include <string.h>
#include <sys/stat.h>
#include <sys/types.h>
#include <unistd.h>
#include <fcntl.h>

enum { READ, WRITE, CUT, SYNC, RENAME, REMOVE };
enum { SPARE = 4, FOLDER = 5, OTHER = 6 };
static const char *const NAMES[] = {"brahma.pages", "brahma.loga", "brahma.logb", "brahma.super", "brahma.new"};

static long loses, fails, calls;
static int shortens, interrupted, trace = -1;
static ssize_t (*next_read)(int, void *, size_t, off64_t);
static ssize_t (*next_write)(int, const void *, size_t, off64_t);
static int (*next_cut)(int, off64_t);
static int (*next_data_sync)(int);
static int (*next_sync)(int);
static int (*next_rename)(const char *, const char *);
static int (*next_remove)(const char *);

static long number(const char *name) {
    const char *told = getenv(name);
    return told ? atol(told) : 0;
}

__attribute__((constructor)) static void begin(void) {
    next_read = dlsym(RTLD_NEXT, "pread64");
    next_write = dlsym(RTLD_NEXT, "pwrite64");
    next_cut = dlsym(RTLD_NEXT, "ftruncate64");
    next_data_sync = dlsym(RTLD_NEXT, "fdatasync");
    next_sync = dlsym(RTLD_NEXT, "fsync");
    next_rename = dlsym(RTLD_NEXT, "rename");
    next_remove = dlsym(RTLD_NEXT, "unlink");
    loses = number("LOSES");
    fails = number("FAILS");
    shortens = number("SHORTENS");
    if (getenv("TRACE")) trace = open(getenv("TRACE"), O_WRONLY | O_CREAT | O_APPEND | O_CLOEXEC, 0600);
}

/* Which of the files has this name, if any. */
static int file_named(const char *path) {
    const char *slash = strrchr(path, '/');
    for (int file = 0; file <= SPARE; file++)
        if (strcmp(slash ? slash + 1 : path, NAMES[file]) == 0) return file;
    return OTHER;
}

/* Which of the files this is, or the folder, or none of them. */
static int file_of(int fd) {
    char link[64], path[4096], *at = link;
    struct stat told;
    if (fstat(fd, &told) == 0 && S_ISDIR(told.st_mode)) return FOLDER;
    strcpy(link, "/proc/self/fd/");
    at += strlen(link);
    if (fd >= 100) *at++ = '0' + fd / 100;
    if (fd >= 10) *at++ = '0' + fd / 10 % 10;
    *at++ = '0' + fd % 10;
    *at = 0;
    ssize_t length = readlink(link, path, sizeof path - 1);
    if (length < 0) return OTHER;
    path[length] = 0;
    return file_named(path);
}

static void put(const void *bytes, size_t length) {
    const char *left = bytes;
    while (trace >= 0 && length > 0) {
        ssize_t done = write(trace, left, length);
        if (done < 0) _exit(98);
        left += done;
        length -= done;
    }
}

/* Traces a call that begins. Tells whether it fails at once, with errno set. */
static int begins(int kind, int file, uint64_t at, const void *bytes, uint64_t length) {
    if (file == OTHER) return 0;
    if (shortens && !interrupted && kind < RENAME) {
        interrupted = 1;
        errno = EINTR;
        return 1;
    }
    interrupted = 0;
    if (!shortens) {
        uint8_t what[2] = {kind, file};
        uint64_t where[2] = {at, length};
        put(what, 2);
        put(where, 16);
        if (kind == WRITE) put(bytes, length);
    }
    calls++;
    if (calls == loses) _exit(97);
    if (calls == fails) {
        put("f", 1);
        errno = EIO;
        return 1;
    }
    return 0;
}

/* Traces that a call ended. */
static long long ended(int file, long long answer) {
    if (file != OTHER && !shortens) put("d", 1);
    return answer;
}

static size_t few(int file, size_t length) { return shortens && file != OTHER && length > 7 ? 7 : length; }

ssize_t pread64(int fd, void *into, size_t length, off64_t at) {
    int file = file_of(fd);
    if (begins(READ, file, at, 0, length)) return -1;
    return ended(file, next_read(fd, into, few(file, length), at));
}

ssize_t pwrite64(int fd, const void *bytes, size_t length, off64_t at) {
    int file = file_of(fd);
    if (begins(WRITE, file, at, bytes, length)) return -1;
    return ended(file, next_write(fd, bytes, few(file, length), at));
}

int ftruncate64(int fd, off64_t length) {
    int file = file_of(fd);
    if (begins(CUT, file, length, 0, 0)) return -1;
    return ended(file, next_cut(fd, length));
}

int fdatasync(int fd) {
    int file = file_of(fd);
    if (begins(SYNC, file, 0, 0, 0)) return -1;
    return ended(file, next_data_sync(fd));
}

int fsync(int fd) {
    int file = file_of(fd);
    if (begins(SYNC, file, 0, 0, 0)) return -1;
    return ended(file, next_sync(fd));
}

int rename(const char *from, const char *to) {
    int file = file_named(to);
    if (begins(RENAME, file, 0, 0, 0)) return -1;
    return ended(file, next_rename(from, to));
}

int unlink(const char *path) {
    int file = file_named(path);
    if (begins(REMOVE, file, 0, 0, 0)) return -1;
    return ended(file, next_remove(path));
}

ssize_t pread(int fd, void *into, size_t length, off_t at) { return pread64(fd, into, length, at); }
ssize_t pwrite(int fd, const void *bytes, size_t length, off_t at) { return pwrite64(fd, bytes, length, at); }
int ftruncate(int fd, off_t length) { return ftruncate64(fd, length); }
"""

# What a client does on a thread.
CLIENT = b"""1 begin
1 make 1
1 store 0 0 1
1 set 1 5
1 commit
1 begin
1 read 0 0 1
1 make 2
1 store 1 0 2
1 store 0 1 2
1 commit
1 begin
1 store 0 0 -
1 set 0 7
1 commit
"""

# What a run does that finds the mark of another one.
UNDER_A_MARK = b"1 begin\n1 set 0 3\n1 commit\n"

# What a run does after one whose sync failed.
LATER = b"1 begin\n1 set 0 8\n1 make 1\n1 store 0 3 1\n1 commit\n2 begin\n2 set 0 11\n2 commit\nclean 0\n1 begin\n1 set 0 12\n1 commit\n"

# Lines that put pairs into a map, change one, take some out, and put again where ids have to be collected before.
PAIRS = b"put 5 50\nput 3 30\nget 5\nput 5 51\nput 9 90\ndel 3\nput 4 40\nput 1 10\ndel 9\nput 8 80\nput 7 70\nlist\ndel 2\n"

LOST = 97
NO_STORE = (7, b"refused: no store\n")


class Losses:
    """Runs that lose power, or whose disk fails."""

    def __init__(self, runs, losses, seed, step):
        self.runs, self.losses, self.seed, self.step = runs, losses, seed, step
        self.trace = os.path.join(os.path.dirname(runs.disk), "trace")

    def run(self, areas, words, script, **told):
        """The status and the output of a run on a store that was so, and the files by its trace."""
        self.runs.lay(areas)
        folder = Folder(areas)
        return self.run_on(folder, words, script, **told)[0], folder

    def run_on(self, folder, words, script, **told):
        """The same of a run on the store as it is, and its calls."""
        if os.path.exists(self.trace):
            os.remove(self.trace)
        ended = self.runs.run(words, script, TRACE=self.trace, **told)
        return ended, folder.goes_on(self.trace)

    def seen(self, words):
        """What is reachable in the store of the folder, or the pairs of its map after lines for that."""
        return self.runs.run(["map"], b"list\n") if words[0] == "map" else self.runs.seen(words[0] == "migrate")

    def fronts(self, areas, words, script):
        """What each number of the script's first lines prints, but for the line at the end, and what is seen after it."""
        lines = script.splitlines(keepends=True)
        found = []
        for count in range(len(lines) + 1):
            self.runs.lay(areas)
            output = self.runs.run(words, b"".join(lines[:count]))[1].splitlines(keepends=True)
            found.append((b"".join(output[:-1]), self.seen(words)))
        return found

    def allowed(self, areas, words, script):
        """A function from what was written to what may be reachable then, or none where all stores are allowed that open."""
        if words[0] == "init":
            seen = [self.runs.seen_behind(it, b"") for it in (areas, self.runs.made({}, (words, b"")))]
            return lambda _: [*seen, NO_STORE]
        if words[0] == "gen":
            return None
        if words[0] == "migrate":
            self.runs.lay(areas)
            seen = self.runs.seen(True)
            return lambda _: [seen]
        if words[0] in ("audit", "backup"):
            script = b""
        fronts = self.fronts(areas, words if words[0] == "map" else ["replay"], script)
        seen = [now for _, now in fronts]
        if words[0] == "run":
            return lambda _: seen
        return lambda output: [it for at, (text, _) in enumerate(fronts) if text == output for it in seen[at: at + 2]]

    def fault_of(self, areas, words, may_be):
        """What is wrong with a store after such a run, if anything."""
        self.runs.lay(areas)
        now = self.seen(words)
        if may_be is not None and now not in may_be:
            return "opens to %r" % (now,)
        return None if now == NO_STORE and may_be else self.runs.fault_of_audit()

    def faults_of(self, found, what, words, may_be, losses=None):
        """What is wrong with stores that a power loss may leave."""
        faults = []
        for loss in range(losses or self.losses):
            draw = random.Random("%d %s %d" % (self.seed, what, loss))
            fault = self.fault_of(found.drawn(draw), words, may_be)
            if fault:
                faults.append("%s, loss %d: %s" % (what, loss, fault))
        return faults

    def lose_each(self, areas, words, script, allowed, wanted):
        """Loses power at each call. What was wrong: at last the program has to end by itself, as it is wanted."""
        faults, at = [], 1
        while True:
            ended, found = self.run(areas, words, script, LOSES=str(at))
            what = "%s, power lost at call %d" % (" ".join(words), at)
            if ended[0] != LOST:
                return faults if ended == wanted and at > 1 else [*faults, "%s: ends with %r" % (what, ended)]
            faults += self.faults_of(found, what, words, allowed and allowed(ended[1]))
            at += self.step

    def fail_each(self, areas, words, script, allowed, calls):
        """Lets each call fail. What was wrong."""
        faults = []
        for at in range(1, calls + 1, self.step):
            what = "%s, call %d fails" % (" ".join(words), at)
            (status, output), found = self.run(areas, words, script, FAILS=str(at))
            written = re.sub(rb"([0-9]+ commit: fault\n)?refused: disk\n\Z", b"", output)
            if status != 6 or written == output:
                faults.append("%s: status %d with %r" % (what, status, output))
                continue
            may_be = allowed and allowed(written)
            left = self.runs.held()
            fault = self.fault_of(left, words, may_be)
            faults += ["%s: %s" % (what, fault)] if fault else []
            faults += self.faults_of(found, what, words, may_be)
        return faults

    def try_each(self, areas, words, script):
        """Loses power at each call of a run, lets each fail, and interrupts them. How many runs were wrong."""
        allowed = self.allowed(areas, words, script)
        self.runs.lay(areas)
        wanted, calls = self.run_on(Folder(areas), words, script)
        faults = self.lose_each(areas, words, script, allowed, wanted)
        faults += self.fail_each(areas, words, script, allowed, len(calls))
        if wanted[0] != 0 or self.run(areas, words, script, SHORTENS="1")[0] != wanted:
            faults.append("%s: status %d, or differs where calls are interrupted" % (" ".join(words), wanted[0]))
        for fault in faults:
            print(fault)
        print("%s: calls: %d, wrong: %d" % (" ".join(words), len(calls), len(faults)), flush=True)
        return len(faults)


    def lie_at(self, areas, script, at, keeps_mark):
        """What is wrong where that call, a sync, fails and the system lets go what was to last by it, and, after a later run, power is
        lost: what that run told as done has to be there. Without the mark of the run that failed that may be missing."""
        what = "call %d fails, and later power is lost" % at
        (status, _), folder = self.run(areas, ["replay"], script, FAILS=str(at))
        if status != 6:
            return ["%s: status %d" % (what, status)]
        held = self.runs.held()
        mark = os.path.join(self.runs.disk, MARK)
        if not keeps_mark and os.path.exists(mark):
            os.remove(mark)
        ended, _ = self.run_on(folder, ["replay"], LATER)
        may_be = [self.runs.seen_behind(held, LATER)]
        ends = [] if ended[0] == 0 else ["%s: ends with %r" % (what, ended)]
        return ends + self.faults_of(folder, what, ["replay"], may_be, None if keeps_mark else 12)

    def lie_each(self, areas, script):
        """Lets each sync of a file fail so. How many runs were wrong."""
        self.runs.lay(areas)
        _, calls = self.run_on(Folder(areas), ["replay"], script)
        syncs = [at for at, (kind, file) in enumerate(calls, 1) if kind == SYNC and file < FOLDER]
        # In the short form the last ones, after which the log is longest.
        syncs = syncs if self.step == 1 else syncs[-4:]
        faults = [fault for at in syncs for fault in self.lie_at(areas, script, at, True)]
        # Without the mark something has to be missing: else these runs tell nothing.
        if not any(self.lie_at(areas, script, at, False) for at in reversed(syncs)):
            faults.append("nothing is missing where the mark of a run is removed")
        for fault in faults:
            print(fault)
        print("replay after a sync that failed: syncs: %d, wrong: %d" % (len(syncs), len(faults)), flush=True)
        return len(faults)


def lose_all(words, runs):
    """Loses power in each command."""
    if words.short:
        words.losses, words.scripts = 2, 0
    losses = Losses(runs, words.losses, words.seed, 17 if words.short else 1)
    fresh = runs.made({}, (["init", "2"], b""))
    unended = runs.made(fresh, (["replay"], stores.SCRIPT + stores.UNENDED))
    drawn_scripts = [damage.script(random.Random("script %d %d" % (words.seed, at))) for at in range(words.scripts)]
    return sum([
        losses.try_each({}, ["init", "2"], b""),
        losses.try_each(unended, ["init", "2"], b""),
        0 if words.short else losses.try_each(fresh, ["replay"], stores.SCRIPT),
        losses.try_each(unended, ["replay"], stores.SCRIPT),
        losses.try_each({**unended, MARK: b"", SPARE_NAME: b"left"}, ["replay"], UNDER_A_MARK),
        losses.lie_each(unended, stores.SCRIPT),
        losses.try_each(unended, ["audit"], b""),
        losses.try_each(unended, ["backup"], b""),
        # At each call in the short form too.
        Losses(runs, words.losses, words.seed, 1).try_each(of_version_1(unended), ["migrate"], b""),
        0 if words.short else losses.try_each(unended, ["migrate"], b""),
        losses.try_each(fresh, ["map"], PAIRS),
        losses.try_each(fresh, ["run"], CLIENT),
        losses.try_each(fresh, stores.GENERATED, b""),
        *(losses.try_each(fresh, ["replay"], script) for script in drawn_scripts),
    ])


if __name__ == "__main__":
    stores.on_stores(__doc__.split("\n")[0], SHIM, lose_all, ("--losses", 10), ("--scripts", 5), ("--seed", 1))
