#!/usr/bin/env python3
"""Compares the Rust blocks of README.md and docs/EMBEDDING.md with the code that the gate proves and runs.

Above each block stands a line <!-- FILE -->. Each statement of the block has to stand in that file, but for its layout and its
comments. A blank line ends a statement too.
"""
import os
import re
import sys

TOP = os.path.dirname(os.path.dirname(os.path.realpath(__file__)))
DOCUMENTS = ("README.md", "docs/EMBEDDING.md")


def bare(code):
    """The code without comments, white space, and commas before a closing bracket."""
    return re.sub(r",([)}\]])", r"\1", re.sub(r"\s+", "", re.sub(r"//.*", "", code)))


def main():
    count, wrong = 0, 0
    for document in DOCUMENTS:
        with open(f"{TOP}/{document}", encoding="utf-8") as it:
            blocks = re.findall(r"^(?:<!-- (\S+) -->\n)?```rust\n(.*?)^```$", it.read(), re.M | re.S)
        for file, code in blocks:
            source = ""
            if file:
                with open(f"{TOP}/{file}", encoding="utf-8") as it:
                    source = bare(it.read())
            parts = [it for text in code.split("\n\n") for it in re.findall(r"[^;]+;?", bare(text))]
            for part in parts:
                count += 1
                if part not in source:
                    wrong += 1
                    print(f"{document}: not in {file or 'any file'}: {part}")
    print(f"statements of the documents: {count}, not in the sources: {wrong}")
    return 1 if wrong or not count else 0


if __name__ == "__main__":
    sys.exit(main())
