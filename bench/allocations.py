#!/usr/bin/env python3
"""Refuses each allocation of the program in turn. In its short form, which refuses some of them, the gate runs it.

    bench/allocations.py [--short] [--program PATH]

A library that is loaded before the C library's own lets the program's Nth allocation fail, for N from 1 on until none
fails any more: while a store is made, while a script is replayed that has every line, while generated calls are done,
while a store is opened whose last transaction had not ended, while an audit is made, and while a store of version 1 is migrated. Each such run has to answer as
without a failure, or with status 8, the same lines up to some place, and `refused: memory`. The store then has to open,
to just what was acknowledged: the objects that are reachable have what they have where only the script's first lines
are replayed. (Behind generated calls it has to open with counts that are right.)
Behind `init` there has to be no store, as before: the program takes memory for its words and its files first.
What else comes is printed with its N, and the status is then 1.
"""
import re

import stores
from versions import of_version_1

REFUSED = b"refused: memory\n"

SHIM = r"""
#define _GNU_SOURCE
#include <dlfcn.h>
#include <stdlib.h>
static long left = -1;
static void *(*next_malloc)(size_t);
static void *(*next_realloc)(void *, size_t);
__attribute__((constructor)) static void begin(void) {
    const char *told = getenv("FAILS");
    next_malloc = dlsym(RTLD_NEXT, "malloc");
    next_realloc = dlsym(RTLD_NEXT, "realloc");
    left = told ? atol(told) : -1;
}
static int fails(void) { return left > 0 && --left == 0; }
void *malloc(size_t size) {
    if (!next_malloc) next_malloc = dlsym(RTLD_NEXT, "malloc");
    return fails() ? 0 : next_malloc(size);
}
void *realloc(void *old, size_t size) {
    if (!next_realloc) next_realloc = dlsym(RTLD_NEXT, "realloc");
    return fails() ? 0 : next_realloc(old, size);
}
"""


class Refusals:
    """Runs of which each has one allocation refused."""

    def __init__(self, runs, step):
        self.runs, self.step, self.commits = runs, step, {}

    def behind(self, areas, words, script, output):
        """What may be reachable after what was written: after some first lines, which have as many commits that were done."""
        if words == ["migrate"]:
            return [self.migrated(areas)]
        if words != ["replay"]:
            return [self.runs.seen_behind(areas, b"")]
        lines = script.splitlines(keepends=True)
        commits = len(re.findall(rb"commit: ok\n", output))
        found = []
        for count in range(len(lines) + 1):
            front = b"".join(lines[:count])
            if self.commits_of(areas, front) == commits:
                found.append(self.runs.seen_behind(areas, front))
        return found

    def migrated(self, areas):
        """What is reachable where nothing fails. The folder of the disk stays as it is."""
        held = self.runs.held()
        self.runs.lay(areas)
        seen = self.runs.seen(True)
        self.runs.lay(held)
        return seen

    def commits_of(self, areas, front):
        """How many commits these lines do."""
        key = (front, *sorted(areas.items()))
        if key not in self.commits:
            self.runs.lay(areas)
            self.commits[key] = len(re.findall(rb"commit: ok\n", self.runs.run(["replay"], front)[1]))
        return self.commits[key]

    def fault_of(self, areas, words, script, wanted, fails):
        """What is wrong where this allocation fails, if anything, and whether one failed."""
        self.runs.lay(areas)
        status, output = self.runs.run(words, script, FAILS=str(fails))
        if (status, output) == wanted:
            return None, False
        if status != 8 or not output.endswith(REFUSED) or not wanted[1].startswith(output[: -len(REFUSED)]):
            return "status %d with %r" % (status, output), True
        if words[0] == "gen":
            return self.runs.fault_of_audit(), True
        now = self.runs.seen(words[0] == "migrate")
        if now not in self.behind(areas, words, script, output):
            return "opens to %r" % (now,), True
        return None, True

    def refuse_each(self, areas, words, script):
        """Lets each allocation fail. How many runs were wrong."""
        self.runs.lay(areas)
        wanted = self.runs.run(words, script)
        wrong, passed, fails = 0, 0, 1 - self.step
        # Some allocations may fail without a trace; the last one that tells anything is followed by fifty that do not.
        while passed < 50:
            fails += self.step
            fault, failed = self.fault_of(areas, words, script, wanted, fails)
            passed = 0 if failed else passed + self.step
            if fault:
                wrong += 1
                print("%s, allocation %d: %s" % (" ".join(words), fails, fault))
        print("%s: status %d, allocations: %d, wrong: %d" % (" ".join(words), wanted[0], fails - passed, wrong))
        return wrong


def refuse_all(words, runs):
    """Refuses the allocations of each command."""
    refusals = Refusals(runs, 25 if words.short else 1)
    fresh = runs.made({}, (["init", "2"], b""))
    unended = runs.made(fresh, (["replay"], stores.SCRIPT + stores.UNENDED))
    return sum([
        refusals.refuse_each({}, ["init", "2"], b""),
        refusals.refuse_each(fresh, ["replay"], stores.SCRIPT),
        refusals.refuse_each(fresh, stores.GENERATED, b""),
        refusals.refuse_each(unended, ["replay"], b"gc all\n"),
        refusals.refuse_each(unended, ["audit"], b""),
        refusals.refuse_each(of_version_1(unended), ["migrate"], b""),
    ])


if __name__ == "__main__":
    stores.on_stores(__doc__.split("\n")[0], SHIM, refuse_all)
