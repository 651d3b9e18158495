#!/usr/bin/env python3
"""Runs the commands that README.md and docs/MANUAL.md show, and compares what they print.

A block that begins with ```console has commands, each behind "$ ", with further lines of it behind "> ". The lines under a
command are what it prints on standard output, and a last line [status N] is its status where that is not 0. All blocks of a
document run in their order in one folder, which is empty at first. There ./brahma is the program that the first word names,
../brahma where there is none. The other commands are those of this repository.
"""
import os
import re
import subprocess
import sys
import tempfile

TOP = os.path.dirname(os.path.dirname(os.path.realpath(__file__)))
DOCUMENTS = ("README.md", "docs/MANUAL.md")


def commands_of(document):
    """The commands of a document: each with what it is to print and its status."""
    with open(f"{TOP}/{document}", encoding="utf-8") as it:
        blocks = re.findall(r"^```console\n(.*?)^```$", it.read(), re.M | re.S)
    found = []
    for line in "".join(blocks).split("\n")[:-1]:
        if line.startswith("$ "):
            found.append([line[2:] + "\n", "", 0])
        elif line.startswith("> "):
            found[-1][0] += line[2:] + "\n"
        elif status := re.fullmatch(r"\[status (\d+)\]", line):
            found[-1][2] = int(status[1])
        else:
            found[-1][1] += line + "\n"
    return found


def furnish(folder, program):
    """Lays the commands of the repository into the folder."""
    for name in ("brahma", "brahma-quick", "brahma-dot"):
        path = program if name == "brahma" else f"{TOP}/{name}"
        with open(f"{folder}/{name}", "w", encoding="utf-8") as it:
            it.write(f'#!/bin/sh\nexec "{path}" "$@"\n')
        os.chmod(f"{folder}/{name}", 0o755)
    os.symlink(f"{TOP}/examples", f"{folder}/examples")


def main():
    program = os.path.realpath(sys.argv[1] if sys.argv[1:] else f"{TOP}/brahma")
    count, wrong = 0, 0
    for document in DOCUMENTS:
        with tempfile.TemporaryDirectory() as folder:
            furnish(folder, program)
            for command, wanted, status in commands_of(document):
                how = {"cwd": folder, "env": {**os.environ, "BRAHMA_OPTIMISE": "no"}}
                ran = subprocess.run(["sh", "-c", command], capture_output=True, text=True, errors="replace", **how)
                count += 1
                if (ran.stdout, ran.returncode) != (wanted, status):
                    wrong += 1
                    print(f"{document}: {command}", end="")
                    print(f"status {ran.returncode}, wanted {status}; printed:\n{ran.stdout}wanted:\n{wanted}{ran.stderr}", end="")
    print(f"commands of the documents: {count}, different: {wrong}")
    return 1 if wrong or not count else 0


if __name__ == "__main__":
    sys.exit(main())
