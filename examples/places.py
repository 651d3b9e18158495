"""Attacks of outside.py on stores that are damaged at one place: each has to be refused with just that place, and to stay as it was.

It is imported, and does nothing by itself.
"""
import os
import sys

HERE = os.path.dirname(os.path.abspath(__file__))
sys.path.insert(0, os.path.join(HERE, "..", "tools"))
sys.dont_write_bytecode = True
from stored import CELL, CELLS, PAGE, SIZES, SLOTS, VERSION

REFUSED = 7
PAGES, LOG, SUPER = "brahma.pages", "brahma.loga", "brahma.super"
BIT, BITS, ID, STRONG, SLOT, ZERO = 1, 2, 4, 8, 24, 24 + 4 * SLOTS
SECOND = CELL

# What is changed in a fresh store of one page, each a file, an offset and a byte, or the length to which the file is cut; and what the
# opening prints then.
DAMAGES = [
    ([(PAGES, BIT, 2)], "page 0 at %d" % BIT),
    ([(PAGES, BITS, 1 << SLOTS - 8)], "page 0 at %d" % BITS),
    ([(PAGES, BITS, 0x80)], "page 0 at %d" % BITS),
    ([(PAGES, BITS + 1, 1)], "page 0 at %d" % BITS),
    ([(PAGES, ZERO, 1)], "page 0 at %d" % ZERO),
    ([(PAGES, CELL - 1, 1)], "page 0 at %d" % ZERO),
    ([(PAGES, SECOND + BIT, 1)], "page 0 at %d" % (SECOND + BIT)),
    ([(PAGES, SECOND + ID + 3, 3)], "page 0 at %d" % (SECOND + ID)),
    ([(PAGES, SECOND + ZERO - 1, 1)], "page 0 at %d" % (SECOND + ZERO - 4)),
    ([(PAGES, 7 * CELL, 2)], "page 0 at %d" % (7 * CELL)),
    ([(PAGES, None, 100)], "page 0 at 100"),
    ([(PAGES, None, PAGE - 1)], "page 0 at %d" % (PAGE - 1)),
    ([(PAGES, 0, 0)], "page 0 at %d" % STRONG),
    ([(PAGES, 0, 0), (PAGES, STRONG + 3, 0)], "object 1 rule 1"),
    ([(PAGES, SLOT + 3, 2)], "object 1 rule 2"),
    ([(PAGES, ZERO - 1, 2)], "object 1 rule 2"),
    ([(PAGES, ZERO - 1, CELLS + 1)], "object 1 rule 2"),
    ([(PAGES, STRONG + 3, 2)], "object 1 rule 3"),
    ([(PAGES, SLOT + 3, 1), (PAGES, STRONG + 3, 2)], "object 1 rule 4"),
    ([(LOG, 0, 0)], "log A at 0"),
    ([(LOG, None, 9)], "log A at 9"),
    ([(LOG, None, 8)], "log A at 0"),
    ([(LOG, 8, 0)], "log A at 5"),
    ([(LOG, 6, 9), (PAGES, 0, 2)], "version 9"),
    *(([(LOG, 6, version)], "version %d" % version) for version in SIZES if version != VERSION),
    ([(SUPER, None, 0)], "no store"),
]


def places(attacks):
    """Each of these damages, behind which each command refuses the store with that place."""
    attacks.fresh()
    attacks.run(["init", "1"])
    fresh = attacks.held()
    for changes, wanted in DAMAGES:
        areas = {name: bytearray(area) for name, area in fresh.items()}
        for name, at, byte in changes:
            if at is None:
                del areas[name][byte:]
            else:
                areas[name][at] = byte
        areas = {name: bytes(area) for name, area in areas.items()}
        for name, area in areas.items():
            attacks.put(name, area)
        # A migration opens a store of the first version at its own number of slots, at which this page is none.
        commands = [["replay"], ["run"], ["audit"], ["migrate"]]
        if wanted in ["version %d" % version for version in SIZES]:
            commands.pop()
            found = attacks.run(["migrate"])
            attacks.expect("migration of a page that is wider than its log tells", REFUSED, found[0])
        for words in commands:
            attacks.expect("%s, %s" % (wanted, words[0]), (REFUSED, b"refused: %s\n" % wanted.encode()), attacks.run(words))
        attacks.expect(wanted + ", files", areas, attacks.held())
