#!/usr/bin/env python3
"""Writes crates.txt with, behind each crate, just the libraries that its files name: `rt` follows every way through these lists, and each list
that also has what is below makes the ways grow manyfold.

usage: tools/direct_deps.py [--check]

--check writes nothing and exits with 1 where a line has more than its crate names. Python 3.8 or later.
"""

import os
import re
import sys

TOP = os.path.join(os.path.dirname(os.path.abspath(__file__)), "..")


def named(crate):
    """The libraries that a crate's files name."""
    found = set()
    for folder, below, files in os.walk(os.path.join(TOP, "crates", crate)):
        below[:] = [b for b in below if b != "out"]
        for file in files:
            if file.endswith((".antt", ".rt")):
                with open(os.path.join(folder, file), encoding="utf-8") as f:
                    text = f.read()
                found.update(re.findall(r"Rattle\.([a-z_0-9]+)\b", text))
                if file.endswith(".rt"):
                    found.update(re.findall(r"\b([a-z_0-9]+)::", re.sub(r"//.*", "", text)))
    return found


def main():
    path = os.path.join(TOP, "crates.txt")
    with open(path, encoding="utf-8") as f:
        lines = f.read().split("\n")
    out = []
    for line in lines:
        if line.strip() and not line.startswith("#"):
            head, deps = line.split(":")
            uses = named(head.split()[0])
            line = f"{head}: {' '.join(d for d in deps.split() if d in uses)}".rstrip(" ")
        out.append(line)
    if out == lines:
        return
    if "--check" in sys.argv:
        sys.exit(1)
    with open(path, "w", encoding="utf-8") as f:
        f.write("\n".join(out))


if __name__ == "__main__":
    main()
