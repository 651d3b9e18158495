"""A store of version 2 as one of version 1, where no object uses a slot that version 1 lacks.

It is imported by power_loss.py, allocations.py and others, and does nothing by itself. What it writes is docs/FORMATS.md's, and no program
makes it.
"""
import os
import struct
import sys

sys.path.insert(0, os.path.join(os.path.dirname(os.path.abspath(__file__)), "..", "tools"))
sys.dont_write_bytecode = True
from stored import CELLS, FIELDS, SIZES, VERSION

FIRST = 1
SLOTS, CELL = SIZES[FIRST]
WIDE_SLOTS, WIDE_CELL = SIZES[VERSION]
PAGE, WIDE_PAGE = CELLS * CELL, CELLS * WIDE_CELL
AT_SLOTS = 24
IMAGE, TURN = 13, 14


def narrow_page(page):
    """The bytes of a page with the slots of version 1."""
    cells = [page[at : at + WIDE_CELL] for at in range(0, len(page), WIDE_CELL)]
    if any(any(cell[AT_SLOTS + 4 * SLOTS :]) for cell in cells):
        raise ValueError("an object uses a slot that version 1 lacks")
    return b"".join(cell[: AT_SLOTS + 4 * SLOTS].ljust(CELL, b"\0") for cell in cells)


def narrow_body(body):
    """The records of a batch."""
    made, at = b"", 0
    while at < len(body):
        if body[at] == IMAGE:
            end = at + 3 + WIDE_PAGE
            made += body[at : at + 3] + narrow_page(body[at + 3 : end])
        elif body[at] == TURN:
            end = at + 4
            made += bytes([TURN, FIRST]) + body[at + 2 : end]
        else:
            end = at + 1 + struct.calcsize(">" + FIELDS[body[at]][1].upper())
            made += body[at:end]
        at = end
    return made


def narrow_log(area):
    """A log area up to its closed commit byte."""
    made, at = b"", 0
    while area[at : at + 1] == b"\1":
        length = struct.unpack_from(">I", area, at + 1)[0]
        body = narrow_body(area[at + 5 : at + 5 + length])
        made += struct.pack(">BI", 1, len(body)) + body
        at += 5 + length
    return made + b"\0"


def of_version_1(areas):
    """The files of a store, each by its name, as those of a store of version 1."""
    whole = {name: bytes(area) for name, area in areas.items()}
    whole["brahma.pages"] = narrow_page(whole["brahma.pages"])
    for log in ("brahma.loga", "brahma.logb"):
        whole[log] = narrow_log(whole[log])
    return whole
