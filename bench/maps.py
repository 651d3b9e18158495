#!/usr/bin/env python3
"""Times the ordered map beside SQLite and LMDB, as a Markdown table. It is run by hand, on a quiet machine, and is no part of the gate.

    bench/maps.py [--program PATH] [--runs N] [--keys N,N..]

PATH is the program, build/brahma where none is told. Each work is done on a fresh store in a folder of its own, in memory where there
is such a place: so many keys are put, 1,000 and 2,000 where nothing else is asked, and then each is asked for. They ascend from 1, or
are drawn at random below 2^63. The program's store has 8,192 ids, which hold 2,730 keys at most.

The program does each line of `brahma map` in a transaction of its own, and writes its answer before the next one. So SQLite and LMDB do
each put and get in a transaction of its own too, and in other rows all puts in one and all gets in another. All three have a commit
kept before they go on: SQLite with a log beside its table (WAL, synchronous = full), LMDB by its defaults. The program's times go from
the first line to the last answer, through pipes. The opening of its store isn't in them, nor the collection at its end. SQLite is
called through Python's module. LMDB is called from a program in C, which takes a C compiler and liblmdb (liblmdb-dev on Debian); where
that doesn't build, LMDB is left out. Each work is done N times, 5 without it, and the least times count. All answers are compared with
what was put.
"""
import argparse
import os
import random
import shutil
import sqlite3
import subprocess
import sys
import tempfile
import time

HERE = os.path.dirname(os.path.abspath(__file__))
PAGES, MOST_KEYS = 1024, 2730

# Puts the pairs of its input into a new database in a folder, asks for each, and prints the milliseconds of both.
LMDB = r"""
#include <inttypes.h>
#include <lmdb.h>
#include <stdio.h>
#include <stdlib.h>
#include <string.h>
#include <time.h>

static MDB_env *env;
static MDB_dbi base;
static uint64_t keys[4096], values[4096];

static void must(int code) {
    if (code) exit(1);
}

static double now(void) {
    struct timespec at;
    clock_gettime(CLOCK_MONOTONIC, &at);
    return at.tv_sec * 1e3 + at.tv_nsec / 1e6;
}

static void put(MDB_txn *txn, int n) {
    MDB_val key = {8, &keys[n]}, value = {8, &values[n]};
    must(mdb_put(txn, base, &key, &value, 0));
}

static void get(MDB_txn *txn, int n) {
    MDB_val key = {8, &keys[n]}, value;
    must(mdb_get(txn, base, &key, &value));
    if (value.mv_size != 8 || memcmp(value.mv_data, &values[n], 8)) exit(2);
}

static double timed(void (*work)(MDB_txn *, int), int count, unsigned flags, int each) {
    double began = now();
    MDB_txn *txn = NULL;
    for (int n = 0; n < count; n++) {
        if (!txn) must(mdb_txn_begin(env, NULL, flags, &txn));
        work(txn, n);
        if (!each && n < count - 1) continue;
        must(mdb_txn_commit(txn));
        txn = NULL;
    }
    return now() - began;
}

int main(int argc, char **argv) {
    int count = 0, each = argc > 2 && !strcmp(argv[2], "each");
    while (count < 4096 && scanf("%" SCNu64 " %" SCNu64, &keys[count], &values[count]) == 2) count++;
    must(argc < 2 || mdb_env_create(&env) || mdb_env_set_mapsize(env, 1 << 28) || mdb_env_open(env, argv[1], 0, 0600));
    MDB_txn *txn;
    must(mdb_txn_begin(env, NULL, 0, &txn) || mdb_dbi_open(txn, NULL, MDB_INTEGERKEY, &base) || mdb_txn_commit(txn));
    double puts = timed(put, count, 0, each);
    printf("%f %f\n", puts, timed(get, count, MDB_RDONLY, each));
    return 0;
}
"""


def folder():
    """A new folder, in memory where there is such a place."""
    return tempfile.TemporaryDirectory(dir="/dev/shm" if os.path.isdir("/dev/shm") else None)


def ascending_pairs(count):
    """The keys from 1 on, with their values."""
    return [(key, value_of(key)) for key in range(1, count + 1)]


def random_pairs(count):
    """Keys drawn below 2^63, each once and the same in each run, with their values."""
    draw, keys = random.Random(count), {}
    while len(keys) < count:
        keys[draw.getrandbits(63)] = None
    return [(key, value_of(key)) for key in keys]


def value_of(key):
    """What is put at a key."""
    return key * 2654435761 % 2**63


class OurMap:
    """The program's map."""

    name, hows = "brahma", ("each",)

    def __init__(self, program):
        self.program = program

    def run(self, pairs, how):
        with folder() as store:
            subprocess.run([self.program, "init", str(PAGES)], cwd=store, stdout=subprocess.DEVNULL, check=True)
            # All lines and answers have room in such pipes, so that neither side waits for the other.
            done = subprocess.Popen([self.program, "map"], cwd=store, stdin=subprocess.PIPE, stdout=subprocess.PIPE, pipesize=2**20)
            first, _ = self.answers(done, ["get 0"])
            put, puts = self.answers(done, ["put %d %d" % pair for pair in pairs])
            got, gets = self.answers(done, ["get %d" % key for key, _ in pairs])
            rest, _ = done.communicate()
        wanted = ["get: none"] + ["put: new"] * len(pairs) + ["get: %d" % value for _, value in pairs] + ["keys %d" % len(pairs)]
        told = first + put + got + rest
        if done.returncode != 0 or told.decode().splitlines() != wanted:
            sys.exit("status %d of %s, or answers that aren't a map's; at last: %r" % (done.returncode, self.program, told[-100:]))
        return puts, gets

    def answers(self, done, lines):
        """What the running program writes for these lines, and how many milliseconds that took."""
        text = "".join(line + "\n" for line in lines).encode()
        began = time.perf_counter()
        try:
            os.write(done.stdin.fileno(), text)
        except BrokenPipeError:
            pass
        told = b"".join([done.stdout.readline() for _ in lines])
        return told, 1000 * (time.perf_counter() - began)


class SqliteMap:
    """A table of SQLite, with the key as its row's number."""

    name, hows = "SQLite", ("each", "one")

    def run(self, pairs, how):
        with folder() as store:
            base = sqlite3.connect(os.path.join(store, "map"), isolation_level=None)
            base.execute("pragma journal_mode = wal")
            base.execute("pragma synchronous = full")
            base.execute("create table pairs (key integer primary key, value integer not null)")
            came = [1000 * time.perf_counter()]
            for work in (self.put, self.get):
                if how == "one":
                    base.execute("begin")
                work(base, pairs)
                if how == "one":
                    base.execute("commit")
                came.append(1000 * time.perf_counter())
            base.close()
        return came[1] - came[0], came[2] - came[1]

    def put(self, base, pairs):
        base.executemany("insert or replace into pairs values (?, ?)", pairs)

    def get(self, base, pairs):
        for key, value in pairs:
            if base.execute("select value from pairs where key = ?", (key,)).fetchone() != (value,):
                sys.exit("SQLite answers otherwise than a map")


class LmdbMap:
    """A database of LMDB, with numbers as keys."""

    name, hows = "LMDB", ("each", "one")

    def __init__(self, home):
        self.program = os.path.join(home, "lmdb")
        with open(self.program + ".c", "w") as file:
            file.write(LMDB)

    def is_built(self):
        """The program in C builds here."""
        words = ["cc", "-O2", "-o", self.program, self.program + ".c", "-llmdb"]
        return shutil.which("cc") is not None and subprocess.run(words, stderr=subprocess.DEVNULL).returncode == 0

    def run(self, pairs, how):
        text = "".join("%d %d\n" % pair for pair in pairs).encode()
        with folder() as store:
            done = subprocess.run([self.program, store, how], input=text, stdout=subprocess.PIPE)
        if done.returncode != 0:
            sys.exit("status %d of LMDB, or answers that aren't a map's" % done.returncode)
        return tuple(float(time) for time in done.stdout.split())


def rows(maps, order, pairs, runs):
    """The rows of the table for these pairs. The maps take turns, so that what else the machine does hits all."""
    times = {}
    for _ in range(runs):
        for one in maps:
            for how in one.hows:
                times.setdefault((one.name, how), []).append(one.run(pairs, how))
    for (name, how), found in times.items():
        puts, gets = (min(time[part] for time in found) for part in (0, 1))
        yield "| %s | %s | %s | %s | %.2f | %.2f |" % (order, f"{len(pairs):,}", name, how, puts, gets)


def main():
    words = argparse.ArgumentParser(description=__doc__.split("\n")[0])
    words.add_argument("--program", default=os.path.join(HERE, "..", "build", "brahma"))
    words.add_argument("--runs", type=int, default=5)
    words.add_argument("--keys", default="1000,2000")
    words = words.parse_args()
    counts = [int(count) for count in words.keys.split(",")]
    if max(counts) > MOST_KEYS:
        sys.exit("a store of %d pages has room for %d keys" % (PAGES, MOST_KEYS))
    with tempfile.TemporaryDirectory() as home:
        maps, lmdb = [OurMap(os.path.abspath(words.program)), SqliteMap()], LmdbMap(home)
        if lmdb.is_built():
            maps.append(lmdb)
        print("Milliseconds for all puts, and for all gets. Each has a transaction of its own, or all puts have one, and so have all gets.")
        print("SQLite is %s.%s\n" % (sqlite3.sqlite_version, "" if lmdb in maps else " LMDB is left out: there is no liblmdb or no C compiler."))
        print("| Order | Keys | Map | Transactions | Puts | Gets |")
        print("|---|---|---|---|---|---|")
        for order, draw in (("ascending", ascending_pairs), ("random", random_pairs)):
            for count in counts:
                for row in rows(maps, order, draw(count), words.runs):
                    print(row, flush=True)


if __name__ == "__main__":
    main()
