#!/usr/bin/env python3
"""Has the program meet each cause of a message, and looks for the message on standard error. The gate runs it, in a few seconds.

    examples/messages.py PROGRAM

The lines on standard output and the statuses are those of docs/MANUAL.md. Each line of a message begins with `brahma: `. Where standard
error is closed, full or read by nobody, all else is as ever. A prompt and progress come on a terminal alone. What is found
otherwise is printed, and the status is then 1.
"""
import fcntl
import os
import pty
import re
import resource
import select
import shutil
import subprocess
import sys
import tempfile

HERE = os.path.dirname(os.path.realpath(__file__))

FILES = ("brahma.pages", "brahma.loga", "brahma.logb", "brahma.super")

# One line of each kind that the grammar has.
LINES = ("1 begin", "64 read 7 5 0", "2 make 3", "3 store 1 2 -", "3 store 1 2 4", "4 get 5", "5 set 6 18446744073709551615", "6 release 7", "6 commit", "7 abort",
         "8 undo", "gc step", "gc all", "clean 1", "turn", "crash 4294967295")

# Lines outside the grammar: each with its marks below, and words of what is said of it.
REFUSED = (
    ("1 fly", "  ^^^", "verbs are begin"),
    ("0 begin", "^", "a client, 1 to 64"),
    ("65 begin", "^^", "a client, 1 to 64"),
    ("go step", "^^", "or with gc, clean, turn or crash"),
    ("1", "  ^", "verbs are begin"),
    ("1 read 8 0 0", "       ^", "a register, 0 to 7"),
    ("1 read 0 64 0", "         ^^", "a slot, 0 to"),
    ("1 read 0 0 -", "           ^", "a register, 0 to 7"),
    ("1 read 0 0", "           ^", "a register, 0 to 7"),
    ("1 store 0 0 8", "            ^", "or - for null"),
    ("1 store 0 0 - 1", "              ^", "the line should end"),
    ("1 set 0 18446744073709551616", "        ^^^^^^^^^^^^^^^^^^^^", "below 2^64"),
    ("1 set 0 000000000000000000001", "        ^^^^^^^^^^^^^^^^^^^^^", "1 to 20 digits"),
    ("1 set 0 -1", "        ^^", "below 2^64"),
    ("1 release 8", "          ^", "a register, 0 to 7"),
    ("1 release 0 0", "            ^", "the line should end"),
    ("gc", "   ^", "step or all"),
    ("gc now", "   ^^^", "step or all"),
    ("clean 1024", "      ^^^^", "a page of the store"),
    ("crash 4294967296", "      ^^^^^^^^^^", "below 2^32"),
    ("turn 1", "     ^", "the line should end"),
    ("  2   get  9", "           ^", "a register, 0 to 7"),
)

# Scripts of a run, each with the number of the line that is refused, and words of what is said of it.
RUNS = (
    ("1 begin\n1 begin\n", 2, "client 1 is in a transaction already"),
    ("# first\n2 get 0\n", 2, "client 2 is in no transaction"),
    ("1 begin\n1 abort\n1 abort\n", 3, "client 1 is in no transaction"),
    ("1 begin\ngc all\n", 2, "lines from `P begin` to `P abort` alone"),
    ("1 begin\n1 undo\n", 2, "lines from `P begin` to `P abort` alone"),
    ("1 begin\n1 fly\n", 2, "verbs are begin"),
)


class Messages:
    """The program, a folder for a store, and what was wrong so far."""

    def __init__(self, program, folder):
        self.program, self.folder, self.disk = program, folder, os.path.join(folder, "disk")
        self.count, self.wrong = 0, 0

    def fresh(self, pages=2):
        """Makes the folder anew, with a store."""
        shutil.rmtree(self.disk, ignore_errors=True)
        os.mkdir(self.disk)
        if pages:
            self.run("init", str(pages))

    def path(self, name):
        return os.path.join(self.disk, name)

    def put(self, name, content):
        with open(self.path(name), "wb") as file:
            file.write(content)

    def run(self, *words, text="", before=(), **how):
        """A run: its status, its output, and what it says on standard error."""
        self.count += 1
        how = {"stdout": subprocess.PIPE, "stderr": subprocess.PIPE, "cwd": self.disk, "timeout": 60, **how}
        if "stdin" not in how:
            how["input"] = text.encode()
        done = subprocess.run([*before, self.program, *words], check=False, **how)
        return done.returncode, (done.stdout or b"").decode(), (done.stderr or b"").decode()

    def tell(self, what, wanted, found):
        self.wrong += 1
        print(f"{what}: wanted {wanted!r}, found {found!r}")

    def expect(self, what, found, status, line, *said):
        """The run ended with this status and this last line, and said all this on standard error, in lines of the program's name."""
        lines = found[1].splitlines()
        if (found[0], lines[-1] if lines else "") != (status, line):
            self.tell(what, (status, line), found)
        elif not all(it in found[2] for it in said) or not all(it.startswith("brahma: ") for it in found[2].splitlines()):
            self.tell(what, said, found[2])
        elif bool(said) != bool(found[2]):
            self.tell(what, said, found[2])

    def leave_out(self, what, why):
        print(f"messages: left out, since this machine does not allow it: {what} ({why})")


def words(it):
    """Words that are no command; and a store that init takes the place of."""
    it.fresh(0)
    it.expect("init", it.run("init", "2"), 0, "pages 2")
    it.expect("init again", it.run("init", "2"), 0, "pages 2", "held a store; init puts an empty one in its place")
    it.expect("standby now", it.run("standby", "now"), 2, "usage", "standby takes no further words")
    it.expect("init 0", it.run("init", "0"), 2, "usage", "1 to 1024", "./brahma help")
    it.expect("init 1025", it.run("init", "1025"), 2, "usage", "1 to 1024")
    it.expect("gen", it.run("gen", "--seed", "1"), 2, "usage", "--clients C, 1 to 64")
    it.expect("replay now", it.run("replay", "now"), 2, "usage", "replay takes no further words")
    it.expect("no words", it.run(), 2, "usage", "no command", "./brahma help")
    it.expect("other words", it.run("fly"), 2, "usage", "no command")


def lines(it):
    """Each line of the grammar with each of its fields spoilt, one missing and one too many; and the lines above."""
    it.fresh()
    for line in LINES:
        fields = line.split(" ")
        for index, field in enumerate(fields):
            spoilt = " ".join([*fields[:index], "?", *fields[index + 1:]])
            at = len(" ".join([*fields[:index], ""]))
            expect_marks(it, spoilt, " " * at + "^")
            if index > 0:
                short = " ".join(fields[:index])
                expect_marks(it, short, " " * (len(short) + 1) + "^")
        expect_marks(it, line + " 0", " " * (len(line) + 1) + "^", "the line should end")
    for line, marks, said in REFUSED:
        expect_marks(it, line, marks, said)


def expect_marks(it, line, marks, said="brahma: "):
    # Comments stand before it and lines behind it, so that it is found among many.
    for before, behind, end in (("", "", "\n"), ("# a comment\n" * 700, "\n1 begin\n" * 9, "\n"), ("\n", "", "\r\n"), ("", "", "")):
        number = before.count("\n") + 1
        found = it.run("replay", text=before + line + end + behind)
        it.expect(line, found, 3, f"refused: line {number}", f"line {number} is outside", f"brahma:     {line}\nbrahma:     {marks}\n", said)


def limits(it):
    """Lines that pass a limit, or have no place."""
    it.fresh(3)
    it.expect("long comment", it.run("replay", text="#" * 129), 3, "refused: line 1", "more than 128 bytes")
    it.expect("very long line", it.run("replay", text="\n" * 5000 + "#" * 9000), 3, "refused: line 5001", "more than 128 bytes")
    it.expect("many lines", it.run("replay", text="\n" * 65537), 3, "refused: line 65537", "at most 65536 lines")
    it.expect("page", it.run("replay", text="clean 3\n"), 3, "refused: line 1", "there is no page 3; the store has 3 pages")
    for text, number, said in RUNS:
        it.expect(text, it.run("run", text=text), 3, f"refused: line {number}", f"line {number}", said, "nothing of the script was done")


def openings(it):
    """Files that hold no store, or a damaged one."""
    it.fresh(0)
    it.expect("no store", it.run("replay"), 7, "refused: no store", "hold no store", "init N")
    it.fresh()
    it.put("brahma.logb", b"x")
    it.put("brahma.super", b"\1")
    it.expect("damaged log", it.run("audit"), 7, "refused: log B at 0", "brahma.logb is damaged", "lay a copy of all four back")
    it.put("brahma.logb", bytes.fromhex("0100000004 0eff000200"))
    it.expect("version", it.run("audit"), 7, "refused: version 255", "has version 255", "use the program of that version")
    it.fresh()
    with open(it.path("brahma.pages"), "r+b") as file:
        file.seek(1)
        file.write(b"\x09")
    found = it.run("audit")
    it.expect("damaged page", found, 7, found[1].strip(), "brahma.pages is damaged: byte", "of page 0")
    it.fresh()
    with open(it.path("brahma.pages"), "r+b") as file:
        file.seek(11)
        file.write(b"\x09")
    it.expect("object", it.run("audit"), 7, "refused: object 1 rule 3", "its counts are not those of the pointers", "rule 3")


def standbys(it):
    """Streams of which no store is made."""
    base = b"\0\1" + b"".join(bytes(4) + number.to_bytes(4, "big") + bytes(120) for number in range(1, 9))
    for old, held in ((0, ()), (1, ("standby puts that of a sound stream in its place",))):
        it.fresh(old)
        it.expect("no pages", it.run("standby", text="\0\1"), 3, "refused: stream at 2", "ends there and lacks pages", "what `backup` writes", *held)
        it.expect("wrong number", it.run("standby", text="\0\0"), 3, "refused: stream at 0", "breaks the format", "left as they are", *held)
        it.expect("no root", it.run("standby", text=base.decode()), 7, "refused: object 1 rule 1", "the root is not stored", "the store that the stream makes", *held)


def checks(it):
    """Streams on which there is no verdict; no file is made."""
    it.fresh(0)
    it.expect("check now", it.run("check", "now"), 2, "usage", "check takes no further words")
    it.expect("check of no pages", it.run("check", text="\0\1\0"), 3, "refused: stream at 3", "ends there and lacks pages", "what `backup` writes")
    it.expect("check of no stream", it.run("check", text="1 begin\n"), 3, "refused: stream at 0", "breaks the format")
    with open(os.path.join(HERE, "check-unsound.script"), "rb") as file:
        it.expect("check of a broken store", it.run("check", stdin=file), 7, "refused: object 1 rule 3", "the store that the stream makes", "its counts")
    with open("/dev/full", "wb") as full, open(os.path.join(HERE, "check.script"), "rb") as file:
        it.expect("output of check", it.run("check", stdin=file, stdout=full), 5, "", "standard output could not be written", "check the stream again")
    if os.listdir(it.disk):
        it.tell("files after checks", [], os.listdir(it.disk))


def maps(it):
    """Lines that ask nothing of a map, and a store that keeps none."""
    it.fresh()
    it.expect("map now", it.run("map", "now"), 2, "usage", "map takes no further words")
    for line in ("set 5 6", "put 5", "put 18446744073709551616 1", "get", "del 5 6", "list 3", "crash 4294967296"):
        it.expect(line, it.run("map", text=f"put 1 2\n{line}\n"), 3, "refused: line 2", f"line 2, `{line}`, asks nothing of a map", "a line is put K V", "go on with it")
    it.expect("long line of a map", it.run("map", text="#" * 129), 3, "refused: line 1", "more than 128 bytes")
    folder = os.open(it.disk, os.O_RDONLY)
    it.expect("input of a map", it.run("map", stdin=folder), 4, "refused: read", "standard input could not be read", "give the rest")
    os.close(folder)
    with open("/dev/full", "wb") as full:
        it.expect("output of a map", it.run("map", text="put 1 2\n", stdout=full), 5, "", "standard output could not be written", "look before")
    it.run("replay", text="1 begin\n1 store 0 13 0\n1 commit\n")
    it.expect("no map", it.run("map"), 7, "refused: object 1 map", "keeps no map", "object 1 is the first", "all other commands open the store")


def streams(it):
    """The input can't be read, or the output not written."""
    it.fresh()
    folder = os.open(it.disk, os.O_RDONLY)
    it.expect("input", it.run("replay", stdin=folder), 4, "refused: read", "standard input could not be read", "first open begin")
    it.expect("input of a run", it.run("run", stdin=folder), 4, "refused: read", "nothing of the script was done")
    it.expect("input of check", it.run("check", stdin=folder), 4, "refused: read", "standard input could not be read", "left as they are")
    it.expect("input of standby", it.run("standby", stdin=folder), 4, "refused: read", "standard input could not be read", "left as they are")
    os.close(folder)
    with open("/dev/full", "wb") as full:
        it.expect("output", it.run("replay", text="1 begin\n", stdout=full), 5, "", "standard output could not be written", "look before")
        it.expect("output of init", it.run("init", "2", stdout=full), 5, "", "standard output could not be written", "the store was made")


def disks(it):
    """Why the disk can't be had."""
    it.fresh()
    with open(it.path("brahma.super"), "rb") as file:
        fcntl.flock(file, fcntl.LOCK_EX)
        it.expect("in use", it.run("audit"), 6, "refused: disk", "another program has opened the store")
    plain = "no link, no device, no pipe and no folder"
    for name in FILES:
        for kind in ("link", "folder", "pipe"):
            it.fresh()
            os.rename(it.path(name), it.path("kept"))
            if kind == "link":
                os.symlink("kept", it.path(name))
            elif kind == "folder":
                os.mkdir(it.path(name))
            else:
                os.mkfifo(it.path(name))
            it.expect(f"{name} is a {kind}", it.run("audit"), 6, "refused: disk", plain)
    it.fresh()
    gone = ["sh", "-c", 'mkdir gone && cd gone && rmdir ../gone && exec "$@"', "sh"]
    it.expect("folder gone", it.run("audit", before=gone), 6, "refused: disk", "the folder is gone")
    small = {"preexec_fn": lambda: resource.setrlimit(resource.RLIMIT_FSIZE, (8192, 8192))}
    ignores = ["sh", "-c", 'trap "" XFSZ; exec "$@"', "sh"]
    it.expect("size of files", it.run("init", "80", before=ignores, **small), 6, "refused: disk", "brahma.pages", "ulimit -f", "no store now")


def rights(it):
    """Who runs the program has no rights to the files, or to their folder."""
    before = []
    own = it.program
    if os.getuid() == 0:
        if shutil.which("setpriv") is None:
            it.leave_out("no rights", "no setpriv")
            return
        before = ["setpriv", "--reuid=65534", "--regid=65534", "--clear-groups"]
        os.chmod(it.folder, 0o755)
        it.program = os.path.join(it.folder, "program")
        shutil.copy(own, it.program)
        os.chmod(it.program, 0o755)
    for name in (*FILES, None):
        it.fresh()
        for each in FILES:
            os.chmod(it.path(each), 0o666)
        os.chmod(it.disk, 0o777)
        os.chmod(it.path(name) if name else it.disk, 0o000 if name else 0o555)
        it.expect(f"no rights to {name}", it.run("audit", before=before), 6, "refused: disk", "Permission denied", "needs the rights")
        os.chmod(it.disk, 0o777)
    it.program = own


def full_disk(it):
    """No space is left."""
    at = os.path.join(it.folder, "small")
    os.mkdir(at)
    if subprocess.run(["mount", "-t", "tmpfs", "-o", "size=16k", "none", at], stderr=subprocess.DEVNULL, check=False).returncode != 0:
        it.leave_out("a full device", "no mounts")
        return
    own, it.disk = it.disk, os.path.join(at, "disk")
    try:
        it.fresh(0)
        it.expect("no space", it.run("init", "200"), 6, "refused: disk", "No space left", "make room", "no store now")
    finally:
        it.disk = own
        subprocess.run(["umount", at], check=True)


def quiet(it):
    """Where all is done nothing is said, and where standard error takes nothing all else is as ever."""
    cases = ((["audit"], ""), (["replay"], "1 begin\n1 commit\n"), (["run"], "1 begin\n1 commit\n"), (["replay"], "1 fly\n"), (["fly"], ""), (["init", "0"], ""),
             (["init", "2"], ""), (["gen", "--seed", "1", "--clients", "2", "--txns", "200"], ""))
    for command, text in cases:
        it.fresh()
        wanted = it.run(*command, text=text)
        files = {name: open(it.path(name), "rb").read() for name in FILES}
        if wanted[0] == 0 and wanted[2] and command[0] != "init":
            it.tell(f"{command}, all done", "", wanted[2])
        for how in ("closed", "full", "unread"):
            it.fresh()
            before = ["sh", "-c", 'exec "$@" 2>&-', "sh"] if how == "closed" else []
            read, write = os.pipe()
            os.close(read)
            with open("/dev/full", "wb") as full:
                error = {"closed": subprocess.DEVNULL, "full": full, "unread": write}[how]
                found = it.run(*command, text=text, before=before, stderr=error)
            os.close(write)
            now = {name: open(it.path(name), "rb").read() for name in FILES}
            if found[:2] != wanted[:2] or now != files:
                it.tell(f"{command}, standard error {how}", wanted[:2], found[:2])


def at_terminal(it, command, typed=(), piped=None):
    """A run whose standard error is a terminal, and whose input is one too, or has these bytes: what the terminal shows, and the status."""
    it.count += 1
    leader, follower = pty.openpty()
    how = {"stdin": follower if piped is None else subprocess.PIPE, "stdout": subprocess.PIPE, "stderr": follower, "cwd": it.disk}
    held = subprocess.Popen([it.program, *command], **how)
    os.close(follower)
    if piped is not None:
        held.stdin.write(piped)
        held.stdin.close()
    shown = b""
    for line in typed:
        while not shown.endswith(b"brahma> "):
            if not select.select([leader], [], [], 20)[0]:
                break
            shown += os.read(leader, 4096)
        os.write(leader, line)
        shown += b"|"
    output = held.stdout.read()
    held.wait(timeout=60)
    while select.select([leader], [], [], 0.2)[0]:
        try:
            shown += os.read(leader, 4096)
        except OSError:
            break
    os.close(leader)
    return held.returncode, output.decode(), shown.decode().replace("\r", "")


def terminals(it):
    """A prompt and progress, on a terminal alone."""
    it.fresh()
    found = at_terminal(it, ["replay"], typed=(b"1 begin\n", b"1 commit\n", b"\x04"))
    if found[:2] != (0, "1 begin: ok\n1 commit: ok\nstored 1\n") or found[2].count("brahma> ") != 3:
        it.tell("a replay at a terminal", "three prompts", found)
    found = at_terminal(it, ["replay"], piped=b"1 begin\n1 commit\n")
    if found != (0, "1 begin: ok\n1 commit: ok\nstored 1\n", ""):
        it.tell("a replay of a pipe with a terminal", "no prompt", found)
    found = at_terminal(it, ["gen", "--seed", "1", "--clients", "2", "--txns", "400"])
    if found[0] != 0 or not re.match(r"brahma: 200 syncs\n", found[2]):
        it.tell("gen at a terminal", "progress", found)
    it.fresh(1024)
    text = b"".join(b"1 begin\n%s1 commit\n" % b"".join(b"1 make 1\n1 store 0 0 1\n" for _ in range(100)) for _ in range(40))
    found = at_terminal(it, ["replay"], piped=text + b"turn\n")
    if found[0] != 0 or "KiB of pages written\n" not in found[2]:
        it.tell("turn at a terminal", "progress", (found[0], found[2]))


ALL = (words, lines, limits, openings, standbys, checks, maps, streams, disks, rights, full_disk, quiet, terminals)


def main():
    folder = tempfile.mkdtemp()
    it = Messages(os.path.abspath(sys.argv[1]), folder)
    try:
        for each in ALL:
            if not sys.argv[2:] or each.__name__ in sys.argv[2:]:
                each(it)
    finally:
        shutil.rmtree(folder, ignore_errors=True)
    print(f"messages: {it.count} runs, wrong: {it.wrong}")
    return 1 if it.wrong else 0


if __name__ == "__main__":
    sys.exit(main())
