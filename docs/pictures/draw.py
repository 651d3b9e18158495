#!/usr/bin/env python3
"""Draws the pictures of the documents, docs/pictures/*.svg, from what the program does and from crates.txt.

  draw.py PROGRAM            draws them anew
  draw.py --check PROGRAM    answers 1 where one that is there differs from what would be drawn
"""
import os
import subprocess
import sys
import tempfile

HERE = os.path.dirname(os.path.realpath(__file__))
TOP = os.path.dirname(os.path.dirname(HERE))
sys.path.insert(0, f"{TOP}/tools")
sys.dont_write_bytecode = True
from stored import ROOT, Store, read_log

STYLE = (
    "text { font: 13px sans-serif; fill: #222 } .small { font-size: 11px; fill: #555 } .head { font-weight: bold } "
    ".mono { font: 12px monospace } .strong { stroke: #222; stroke-width: 1.8; fill: none } "
    ".weak { stroke: #777; stroke-width: 1.4; stroke-dasharray: 5 4; fill: none } .box { fill: #fff; stroke: #222 } "
    ".open { fill: #bfe3c0; stroke: #222 } .closed { fill: #f3bcb4; stroke: #222 } .part { fill: #dfe8f5; stroke: #222 } "
    ".old { fill: #eee; stroke: #999 } .run { fill: #f4f4f4; stroke: #999 }"
)


class Picture:
    """Lines of a drawing, of this width and height."""

    def __init__(self, width, height):
        self.width, self.height, self.lines = width, height, []

    def text(self, x, y, words, kind="", anchor="start"):
        words = words.replace("&", "&amp;").replace("<", "&lt;")
        self.lines.append(f'<text x="{x}" y="{y}" class="{kind}" text-anchor="{anchor}">{words}</text>')

    def box(self, x, y, width, height, kind="box", round_by=0):
        self.lines.append(f'<rect x="{x}" y="{y}" width="{width}" height="{height}" rx="{round_by}" class="{kind}"/>')

    def arrow(self, start, end, kind, bend=0, gap=20):
        """An arrow between the rims of two circles, bent to its left."""
        (x, y), (to_x, to_y) = start, end
        length = max(((to_x - x) ** 2 + (to_y - y) ** 2) ** 0.5, 1)
        along, across = ((to_x - x) / length, (to_y - y) / length), ((y - to_y) / length, (to_x - x) / length)
        middle = ((x + to_x) / 2 + bend * across[0], (y + to_y) / 2 + bend * across[1])
        lean = 0.35 * bend / max(abs(bend), 1)
        first = (x + gap * (along[0] + lean * across[0]), y + gap * (along[1] + lean * across[1]))
        last = (to_x - (gap + 3) * (along[0] - lean * across[0]), to_y - (gap + 3) * (along[1] - lean * across[1]))
        path = "M{:.1f} {:.1f} Q{:.1f} {:.1f} {:.1f} {:.1f}".format(*first, *middle, *last)
        self.lines.append(f'<path d="{path}" class="{kind}" marker-end="url(#tip)"/>')

    def circle(self, at, kind="box", size=18):
        self.lines.append(f'<circle cx="{at[0]}" cy="{at[1]}" r="{size}" class="{kind}"/>')

    def svg(self):
        head = f'<svg xmlns="http://www.w3.org/2000/svg" width="{self.width}" height="{self.height}" '
        head += f'viewBox="0 0 {self.width} {self.height}">'
        tip = '<marker id="tip" viewBox="0 0 10 10" refX="9" refY="5" markerWidth="8" markerHeight="8" orient="auto">'
        tip += '<path d="M0 0 L10 5 L0 10 z" fill="#222"/></marker>'
        ground = f'<rect width="{self.width}" height="{self.height}" fill="#fff"/>'
        return "\n".join([head, f"<style>{STYLE}</style>", f"<defs>{tip}</defs>", ground, *self.lines, "</svg>", ""])


class Folder:
    """A folder with a store, in which the program is run."""

    def __init__(self, program):
        self.program, self.held = program, tempfile.TemporaryDirectory()
        self.path = self.held.name

    def run(self, *words, script=""):
        ran = subprocess.run([self.program, *words], cwd=self.path, input=script, capture_output=True, text=True)
        return ran.stdout

    def bytes_of(self, area):
        with open(f"{self.path}/brahma.{area}", "rb") as it:
            return it.read()

    def lay(self, area, content):
        with open(f"{self.path}/brahma.{area}", "wb") as it:
            it.write(content)


def script(name):
    with open(f"{HERE}/{name}.script", encoding="utf-8") as it:
        return it.read()


def depths(store):
    """How many pointers lead from the root to each live object; those that it does not reach stand last."""
    found, row = {ROOT: 0}, [ROOT]
    while row:
        row = [to for of in row for _, to, _ in store.pointers(of) if to not in found and not found.update({to: found[of] + 1})]
    return {of: found.get(of, max(found.values()) + 1) for of in store.live()}


def places_of(store, left, top, across, down):
    """Where each object is drawn: in the column of its depth, those of a column under each other."""
    columns, places = {}, {}
    for of, depth in depths(store).items():
        columns.setdefault(depth, []).append(of)
    tallest = max(len(it) for it in columns.values())
    for depth, column in columns.items():
        for at, of in enumerate(column):
            places[of] = (left + depth * across, top + down * (at + (tallest - len(column)) / 2))
    return places


def draw_graph(picture, store, places, payloads=True):
    for of in store.live():
        for slot, to, strong in store.pointers(of):
            both = any(it == of for _, it, _ in store.pointers(to))
            picture.arrow(places[of], places[to], "strong" if strong else "weak", 26 if both else 0)
    for of in store.live():
        x, y = places[of]
        picture.circle((x, y), "box")
        if of == ROOT:
            picture.circle((x, y), "box", 14)
        picture.text(x, y + 5, str(of), "", "middle")
        if payloads and store.cells[of].payload:
            picture.text(x, y + 34, f"payload {store.cells[of].payload}", "small", "middle")


def legend(picture, x, y):
    picture.arrow((x, y), (x + 70, y), "strong", 0, 4)
    picture.text(x + 78, y + 4, "strong pointer", "small")
    picture.arrow((x + 180, y), (x + 250, y), "weak", 0, 4)
    picture.text(x + 258, y + 4, "weak pointer", "small")


def graph(program):
    """The stored graph after graph.script."""
    folder = Folder(program)
    folder.run("init", "1")
    folder.run("replay", script=script("graph"))
    store = Store(folder.path)
    picture = Picture(620, 310)
    draw_graph(picture, store, places_of(store, 70, 50, 220, 80))
    legend(picture, 50, 285)
    picture.text(440, 289, "object 1 is the root", "small")
    return picture


GC_STEP = "gc step\n"

WORDS = {
    "Weaken": "object {1}: the pointer in slot {2} becomes weak",
    "Strengthen": "object {1}: the pointer in slot {2} becomes strong",
    "Flip": "object {1}: weak pointers to it become strong",
    "CutDead": "object {1} is condemned: its slot {2} is emptied",
    "Free": "object {1} is deleted",
}


def told_of(record):
    name, fields = record
    return WORDS[name].format(name, *fields) if name in WORDS else name


def frames_of(program):
    """The stores after each event of the collector that changes a cell, with what came since the frame before."""
    found, seen, quiet = [], None, 0
    for steps in range(80):
        folder = Folder(program)
        folder.run("init", "1")
        folder.run("replay", script=f"{script('round')}{steps * GC_STEP}clean 0\n")
        store = Store(folder.path)
        records = [it for it in store.records if it[0] in WORDS]
        if seen is None:
            found.append((store, ["before the round: the open transaction", "has made object 4 and laid it into the root"]))
        elif len(records) > len(seen):
            told = [told_of(it) for it in records[len(seen) :]]
            before = [f"{quiet} events change no cell: copies and the verdict"] if quiet > 1 else []
            found.append((store, [*before, *told]))
            quiet = 0
        else:
            quiet += 1
        if seen is not None and quiet > 12:
            return found
        seen = records
    return found


def round_of(program):
    """A round of the collector, step by step, beside an open transaction."""
    frames = frames_of(program)
    columns, width, height = 3, 300, 250
    rows = (len(frames) + columns - 1) // columns
    picture = Picture(columns * width, rows * height + 40)
    spots = {1: (50, 90), 4: (250, 50), 2: (150, 170), 3: (260, 170)}
    for at, (store, told) in enumerate(frames):
        left, top = at % columns * width, at // columns * height
        picture.box(left + 5, top + 5, width - 10, height - 10, "box", 6)
        places = {of: (left + x, top + y) for of, (x, y) in spots.items()}
        draw_graph(picture, store, places, False)
        picture.text(left + 14, top + 22, f"{at}", "head")
        for line, words in enumerate(told):
            picture.text(left + 14, top + height - 34 + 15 * (line - len(told) + 2), words, "small")
    legend(picture, 20, rows * height + 20)
    return picture


def batch_parts(batch):
    """What stands in a batch, in the words of the format."""
    for name, fields in batch.records:
        if name == "Turn":
            yield f"Turn: {fields[1]} page"
        elif name == "Image":
            yield f"Image of page {fields[0]}"
        else:
            yield name


def draw_area(picture, x, y, area, named):
    """A log area as boxes: gates, lengths and records."""
    batches, end = read_log(area)
    picture.text(x - 10, y + 19, "named" if named else "", "small", "end")
    for batch in batches:
        picture.box(x, y, 22, 28, "open")
        picture.text(x + 11, y + 19, "1", "mono", "middle")
        picture.box(x + 22, y, 34, 28)
        picture.text(x + 39, y + 19, str(batch.length), "mono", "middle")
        x += 56
        for words in batch_parts(batch):
            wide = 14 + 7 * len(words)
            picture.box(x, y, wide, 28, "part")
            picture.text(x + wide / 2, y + 19, words, "small", "middle")
            x += wide
    if end < len(area):
        picture.box(x, y, 22, 28, "closed")
        picture.text(x + 11, y + 19, str(area[end]), "mono", "middle")
    return x + 22


def log(program):
    """The two log areas: of a fresh store, after a commit, and after a checkpoint."""
    folder = Folder(program)
    folder.run("init", "1")
    picture = Picture(820, 350)
    steps = [("a fresh store", ""), ("after a commit", script("commit")), ("after a checkpoint", "turn\n")]
    for at, (words, lines) in enumerate(steps):
        if lines:
            folder.run("replay", script=lines)
        top = 20 + at * 95
        picture.text(20, top + 12, words, "head")
        named = folder.bytes_of("super")[0] % 2
        for row, area in enumerate(("loga", "logb")):
            picture.text(20, top + 38 + row * 34, f"log area {'AB'[row]}", "small")
            draw_area(picture, 150, top + 20 + row * 34, folder.bytes_of(area), named == row)
    picture.box(20, 306, 16, 16, "open")
    picture.text(42, 319, "an open gate: a batch follows", "small")
    picture.box(220, 306, 16, 16, "closed")
    picture.text(242, 319, "a closed gate ends the log", "small")
    picture.text(410, 319, "a gate is the format's commit byte", "small")
    picture.text(20, 340, "The number after an open gate is the length of the batch's body. The super area names one of the two areas.", "small")
    return picture


def contents_of_commit(program):
    """What log area A may have at each moment of a commit, with the words for it."""
    folder = Folder(program)
    folder.run("init", "1")
    before = folder.bytes_of("loga")
    folder.run("replay", script=script("commit"))
    after = folder.bytes_of("loga")
    gate = read_log(before)[1]
    closed = after[:gate] + before[gate : gate + 1] + after[gate + 1 :]
    torn = closed[: gate + 1 + (len(closed) - gate) // 2]
    return [
        ("before the commit", before),
        ("1  the batch is being written: a part of it is there", torn),
        ("2  the batch is written and synced, after a closed gate", closed),
        ("3  the gate is being opened: still closed", closed),
        ("3  the gate is being opened: already open", after),
        ("4  the gate is synced: the commit is answered", after),
    ]


def crash(program):
    """What a crash at each moment of a commit leaves, and to what it opens: each is laid down, and the program opens it."""
    folder = Folder(program)
    folder.run("init", "1")
    areas = {it: folder.bytes_of(it) for it in ("pages", "loga", "logb", "super")}
    rows = contents_of_commit(program)
    picture = Picture(960, 44 + 46 * len(rows))
    for x, words in ((20, "a crash at this moment"), (400, "may leave of log area A"), (860, "opens to")):
        picture.text(x, 24, words, "head")
    gate = read_log(areas["loga"])[1]
    for at, (words, area) in enumerate(rows):
        top = 44 + 46 * at
        for name, content in areas.items():
            folder.lay(name, content)
        folder.lay("loga", area)
        opened = folder.run("replay").split("\n")[0]
        picture.text(20, top + 19, words)
        x = draw_area(picture, 400, top, area, False)
        rest = len(area) - gate - 1
        if rest > 0 and area[gate] != 1:
            picture.box(x, top, 150, 28, "old")
            picture.text(x + 75, top + 19, f"{rest} bytes, not read", "small", "middle")
        picture.text(860, top + 19, opened.replace("stored", "objects"))
    return picture


def storeys(program):
    """The crates in storeys: each stands on crates of lower storeys alone."""
    crates = {}
    with open(f"{TOP}/crates.txt", encoding="utf-8") as lines:
        for line in lines:
            name, colon, names = line.partition(":")
            if colon and not name.startswith("#"):
                crates[name.split()[0]] = names.split()
    levels = {}

    def level(name):
        if name not in levels:
            levels[name] = 1 + max((level(it) for it in crates[name] if it in crates), default=-1)
        return levels[name]

    rows = {}
    for name in crates:
        rows.setdefault(level(name), []).append(name)
    used = {it for names in crates.values() for it in names}
    picture = Picture(660, 46 + 34 * len(rows))
    for at, row in sorted(rows.items()):
        x, y = 40, 10 + 34 * (len(rows) - 1 - at)
        picture.text(12, y + 19, str(at), "small")
        for name in sorted(row):
            wide = 16 + 7 * len(name)
            is_run = name not in used and name != "brahma"
            picture.box(x, y, wide, 26, "run" if is_run else "part", 4)
            picture.text(x + wide / 2, y + 18, name, "small", "middle")
            x += wide + 10
    picture.text(40, 34 * len(rows) + 32, "Each crate names crates of lower storeys alone. Grey ones are named by no crate: runs and benches.", "small")
    return picture


PICTURES = {"graph": graph, "round": round_of, "log": log, "crash": crash, "storeys": storeys}


def main(words):
    is_check = words[:1] == ["--check"]
    program = os.path.realpath(words[is_check]) if words[is_check:] else f"{TOP}/brahma"
    wrong = 0
    for name, draw in PICTURES.items():
        made, file = draw(program).svg(), f"{HERE}/{name}.svg"
        if not is_check:
            with open(file, "w", encoding="utf-8") as it:
                it.write(made)
            continue
        with open(file, encoding="utf-8") as it:
            if it.read() != made:
                wrong += 1
                print(f"pictures: {name}.svg differs from what the program does now")
    print(f"pictures: {len(PICTURES)}, different: {wrong}")
    return 1 if wrong else 0


if __name__ == "__main__":
    sys.exit(main(sys.argv[1:]))
