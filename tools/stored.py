"""Reads a store from its files, by docs/FORMATS.md, and changes nothing in them.

It is for drawings: it does the records of the log to the pages, as an opening does, and tests little of what an opening tests.
"""
import fcntl
import struct

CELLS = 8
ROOT = 1

# For each version of the format how many slots an object has, and how many bytes a cell.
SIZES = {1: (6, 64), 2: (14, 128)}

# The program's stores.
VERSION = 2
SLOTS, CELL = SIZES[VERSION]
PAGE = CELLS * CELL

# The fields after the kind of each record: b one byte, i four, q eight.
FIELDS = {
    1: ("Begin", "b"),
    2: ("Make", "bi"),
    3: ("Store", "bibibibb"),
    4: ("Pay", "biqq"),
    5: ("Commit", "b"),
    6: ("Undo", "bibqbqb"),
    7: ("AbortEnd", "b"),
    8: ("Weaken", "ibi"),
    9: ("Strengthen", "ibi"),
    10: ("Flip", "i"),
    11: ("CutDead", "ibib"),
    12: ("Free", "i"),
}
PAYLOAD = 255


class Unreadable(Exception):
    """The files are no store that can be read here."""


class Cell:
    """A cell: whether it is live, its target bit, its payload, and for each slot the target with the pointer's bit."""

    def __init__(self, slots, live=False):
        self.live, self.bit, self.payload, self.pointers = live, 0, 0, [(0, 0)] * slots


class Batch:
    """A batch of a log area: where it begins, its body's length, and its records, each with its name and its fields."""

    def __init__(self, at, length, records):
        self.at, self.length, self.records = at, length, records


def read_cells(page, slots):
    """The eight cells of a page's bytes."""
    size, cells = len(page) // CELLS, []
    for at in range(0, len(page), size):
        live, bit, bits = struct.unpack_from(">BBH", page, at)
        cell = Cell(slots, bool(live))
        cell.bit, cell.payload = bit, struct.unpack_from(">Q", page, at + 16)[0]
        targets = struct.unpack_from(f">{slots}I", page, at + 24)
        cell.pointers = [(target, bits >> slot & 1) for slot, target in enumerate(targets)]
        cells.append(cell)
    return cells


def read_records(body, size):
    """The records of a batch's body; a page has so many bytes."""
    found, at = [], 0
    while at < len(body):
        kind = body[at]
        if kind == 13:
            found.append(("Image", (struct.unpack_from(">H", body, at + 1)[0], body[at + 3 : at + 3 + size])))
            at += 3 + size
        elif kind == 14:
            found.append(("Turn", struct.unpack_from(">BH", body, at + 1)))
            at += 4
        elif kind in FIELDS:
            name, form = FIELDS[kind]
            layout = ">" + form.upper()
            found.append((name, struct.unpack_from(layout, body, at + 1)))
            at += 1 + struct.calcsize(layout)
        else:
            raise Unreadable(f"the log has a record of kind {kind}")
    return found


def read_log(area):
    """The batches of a log area, and the offset of the closed commit byte after them."""
    batches, at, size = [], 0, CELLS * SIZES[1][1]
    while at < len(area) and area[at] == 1:
        length = struct.unpack_from(">I", area, at + 1)[0]
        body = area[at + 5 : at + 5 + length]
        if not batches and len(body) > 1 and body[1] in SIZES:
            size = CELLS * SIZES[body[1]][1]
        batches.append(Batch(at, length, read_records(body, size)))
        at += 5 + length
    return batches, at


class Store:
    """The cells that the files of a folder open to, before what has not ended is undone."""

    def __init__(self, folder):
        self.areas = {it: self.bytes_of(folder, it) for it in ("super", "pages", "loga", "logb")}
        if not self.areas["super"]:
            raise Unreadable("no store")
        self.named = "logb" if self.areas["super"][0] % 2 else "loga"
        try:
            self.batches, self.end = read_log(self.areas[self.named])
            records = [it for batch in self.batches for it in batch.records]
            (_, (version, pages)), *self.records = records
            self.slots, size = SIZES[version]
            area = self.areas["pages"].ljust(pages * CELLS * size, b"\0")
            parts = [area[at : at + CELLS * size] for at in range(0, pages * CELLS * size, CELLS * size)]
            self.cells = [Cell(self.slots), *[cell for it in parts for cell in read_cells(it, self.slots)]]
            self.replay()
        except (struct.error, ValueError, IndexError, KeyError) as error:
            raise Unreadable(f"the log can't be read: {error}") from error

    def bytes_of(self, folder, area):
        """The bytes of a file. The super area is locked meanwhile, as long as this process has the file."""
        try:
            it = open(f"{folder}/brahma.{area}", "rb")
        except OSError as error:
            raise Unreadable(f"no store: {error}") from error
        if area == "super":
            self.lock = it
            try:
                fcntl.flock(it, fcntl.LOCK_SH | fcntl.LOCK_NB)
            except BlockingIOError as error:
                raise Unreadable("another program has the store") from error
        return it.read()

    def replay(self):
        """Does the records to the cells. A page begins with its last image, and what came before that is left out."""
        self.writes = {}
        last = {fields[0]: at for at, (name, fields) in enumerate(self.records) if name == "Image"}
        for at, (name, fields) in enumerate(self.records):
            if name == "Image" and last[fields[0]] == at:
                first = fields[0] * CELLS + 1
                self.cells[first : first + CELLS] = read_cells(fields[1], self.slots)
            elif name != "Image":
                self.follow(name, fields)
                of = self.id_of(name, fields)
                if of and last.get((of - 1) // CELLS, -1) < at:
                    self.change(name, of, fields)

    @staticmethod
    def id_of(name, fields):
        """The id of the cell that a record changes, or 0."""
        if name in ("Weaken", "Strengthen", "Flip", "CutDead", "Free"):
            return fields[0]
        return fields[1] if len(fields) > 1 else 0

    def follow(self, name, fields):
        """Keeps what each transaction that has not ended wrote, and what stood there before."""
        client = fields[0]
        if name == "Begin":
            self.writes[client] = []
        elif name == "Store":
            self.writes[client].append((fields[1], fields[2], fields[3]))
        elif name == "Pay":
            self.writes[client].append((fields[1], PAYLOAD, fields[2]))
        elif name == "Undo":
            self.writes[client].pop()
        elif name in ("Commit", "AbortEnd"):
            del self.writes[client]

    def change(self, name, of, fields):
        """What a record does to its own cell."""
        cell = self.cells[of]
        if name == "Make":
            self.cells[of] = Cell(self.slots, True)
        elif name == "Free":
            self.cells[of] = Cell(self.slots)
        elif name == "Store":
            cell.pointers[fields[2]] = (fields[5], fields[6])
        elif name == "Pay":
            cell.payload = fields[3]
        elif name == "Undo" and fields[2] == PAYLOAD:
            cell.payload = fields[5]
        elif name == "Undo":
            cell.pointers[fields[2]] = (fields[5], fields[6])
        elif name == "CutDead":
            cell.pointers[fields[1]] = (0, 0)
        elif name in ("Weaken", "Strengthen"):
            target, bit = cell.pointers[fields[1]]
            cell.pointers[fields[1]] = (target, 1 - bit)
        elif name == "Flip":
            cell.bit = 1 - cell.bit
            cell.pointers = [(to, 1 - bit if to == of else bit) for to, bit in cell.pointers]

    def undo(self):
        """Undoes what has not ended, as an opening does: a pointer comes back as a weak one."""
        for client in sorted(self.writes):
            for of, place, before in reversed(self.writes[client]):
                if place == PAYLOAD:
                    self.cells[of].payload = before
                else:
                    weak = 1 - self.cells[before].bit if before else 0
                    self.cells[of].pointers[place] = (before, weak)
        self.writes = {}

    def live(self):
        return [of for of, cell in enumerate(self.cells) if cell.live]

    def pointers(self, of):
        """The slots of an object that are not null: slot, target, and whether the pointer is strong."""
        held = enumerate(self.cells[of].pointers)
        return [(slot, to, self.cells[to].bit == bit) for slot, (to, bit) in held if to]

    def reached(self):
        """The objects that the root reaches."""
        found, left = {ROOT}, [ROOT]
        while left:
            for _, to, _ in self.pointers(left.pop()):
                if to not in found:
                    found.add(to)
                    left.append(to)
        return found
