"""The files of a store as a power loss may leave them, by a trace of the calls that a program made on them.

It is imported by power_loss.py, and does nothing by itself.
"""
import struct

import stores

# The kinds of a call in a trace, and what a call may be on beside the four files: a new file, and the folder of all.
WRITE, CUT, SYNC, RENAME, REMOVE = 1, 2, 3, 4, 5
SPARE, FOLDER = 4, 5
SPARE_NAME, MARK = "brahma.new", "brahma.open"


class Area:
    """What a file had once, and the writes and cuts since then, each with what is known of it: a sync made it last, none did yet, or
    one failed, after which the system may count it as written though it never is."""

    def __init__(self, content):
        self.first, self.changes = content, []

    def change(self, at, data):
        """A write of these bytes, or, without bytes, a cut."""
        self.changes.append((at, data, "waits"))

    def sync(self, succeeds):
        """What waits lasts now, or is let go. What was let go does not last by a later sync."""
        to = "lasts" if succeeds else "let go"
        self.changes = [(at, data, to if how == "waits" else how) for at, data, how in self.changes]
        if all(how == "lasts" for _, _, how in self.changes):
            self.first, self.changes = self.content(), []

    def content(self):
        """What the file has where all of them are done."""
        content = self.first
        for at, data, _ in self.changes:
            content = done(content, at, data)
        return content

    def left(self, draw):
        """What a power loss may leave."""
        content, way = self.first, draw.randrange(5)
        first = draw.randrange(len(self.changes) + 1)
        for count, (at, data, how) in enumerate(self.changes):
            # All of them, some first ones, each as it falls, none, or anything where they wrote.
            if how == "lasts" or way == 0 or way == 1 and count < first or way == 2 and draw.random() < 0.5:
                content = done(content, at, data)
            elif way == 1 and count == first or way == 2 and draw.random() < 0.5:
                content = in_part(content, at, data, draw)
            elif way == 3 and data is not None:
                content = done(content, at, draw.randbytes(draw.randrange(len(data) + 1)))
        return content


class Folder:
    """The files by their names, and, where a new file got a name that no sync of the folder made last yet, what had it before."""

    def __init__(self, areas):
        self.named = [Area(areas.get(name, b"")) for name in stores.FILES]
        self.before, self.spare = {}, Area(b"")

    def happens(self, kind, file, at, data, ended):
        """A call of the trace. It was done (d) or failed (f), or power was lost in it."""
        if kind == RENAME and ended != b"f":
            self.before.setdefault(file, self.named[file])
            self.named[file], self.spare = self.spare, Area(b"")
        elif kind == REMOVE and ended == b"d":
            self.spare = Area(b"")
        elif kind == SYNC and file == FOLDER and ended == b"d":
            self.before = {}
        elif file <= SPARE:
            area = self.spare if file == SPARE else self.named[file]
            if kind in (WRITE, CUT):
                area.change(at, data)
            elif kind == SYNC and ended:
                area.sync(ended == b"d")

    def goes_on(self, path):
        """The same after a trace. What its calls were, each a kind and a file, is handed back."""
        with open(path, "rb") as file:
            trace = file.read()
        calls, place = [], 0
        while place < len(trace):
            kind, at_file = trace[place], trace[place + 1]
            at, length = struct.unpack_from("=QQ", trace, place + 2)
            place += 18
            data = trace[place: place + length] if kind == WRITE else None
            place += length if kind == WRITE else 0
            self.happens(kind, at_file, at, data, trace[place: place + 1])
            place += 1
            calls.append((kind, at_file))
        return calls

    def drawn(self, draw):
        """The files as a power loss may leave them. An empty one may as well not be there, and nor may the mark of a run."""
        areas = [self.before[at] if at in self.before and draw.random() < 0.5 else area for at, area in enumerate(self.named)]
        left = {name: area.left(draw) for name, area in zip(stores.FILES, areas)}
        left = {name: content for name, content in left.items() if content or draw.random() < 0.5}
        if self.spare.changes and draw.random() < 0.5:
            left[SPARE_NAME] = self.spare.left(draw)
        if draw.random() < 0.5:
            left[MARK] = b""
        return left


def done(content, at, data):
    """A content after a write of these bytes, or, without bytes, after a cut."""
    if data is None:
        return content[:at]
    return content[:at].ljust(at, b"\0") + data + content[at + len(data):]


def in_part(content, at, data, draw):
    """A content after a part of a write or a cut."""
    if data is None:
        return content[: draw.randrange(min(at, len(content)), len(content) + 1)]
    start, end = sorted(draw.randrange(len(data) + 1) for _ in range(2))
    return done(content, at + start, data[start:end])
