#!/usr/bin/env python3
"""Fails if crates.txt gives a crate a library that no file of the crate names.

    scripts/crate_edges.py

Each library on a crate's line is read at every check of the crate, and its lemmas are searched. So a line lists what the crate's
code, definitions or proofs name outside of comments, as `name::..` in src/ and `Rattle.name...` in specs/ and proofs/. A library
that a check needs although no file names it is listed with its reason at the end of the line, as `# name name: why`.

It prints a line for each such library, and for each reason that has nothing to excuse, or 'crate_edges: ok'. It writes nothing.
"""
import argparse
import os
import re
import sys

LIST = "crates.txt"
ROW = re.compile(r"([a-z0-9_]+)[^:#]*:([^#]*)(?:#(.*))?")
COMMENTS = {".rt": "//", ".antt": "--"}
PARTS = ("src", "specs", "proofs")
NAMED = re.compile(r"(?<![\w:])([a-z0-9_]+)(?= ?::)|\bRattle[.·]([a-z0-9_]+)(?=[.·])")


def rows():
    """The crates of the list, as (line number, name, libraries, libraries with a reason)."""
    with open(LIST, encoding="utf-8") as file:
        for number, line in enumerate(file, 1):
            row = ROW.match(line)
            if row:
                excused, colon, _ = (row[3] or "").partition(":")
                yield number, row[1], row[2].split(), excused.split() if colon else []


def files_of(crate):
    for part in PARTS:
        for folder, _, names in os.walk(f"crates/{crate}/{part}"):
            yield from (f"{folder}/{name}" for name in names if os.path.splitext(name)[1] in COMMENTS)


def named_by(crate):
    """What the files of a crate may name as a library: the first words of paths."""
    found = set()
    for name in files_of(crate):
        mark = COMMENTS[os.path.splitext(name)[1]]
        with open(name, encoding="utf-8") as file:
            for line in file:
                found.update(a or b for a, b in NAMED.findall(line.partition(mark)[0]))
    return found


def findings():
    for number, crate, libraries, excused in rows():
        named = named_by(crate)
        for library in libraries:
            if library not in named and library not in excused:
                yield f"{LIST}:{number}: {crate} lists {library}, and no file of it names {library}"
        for library in excused:
            if library not in libraries or library in named:
                yield f"{LIST}:{number}: {crate} has a reason for {library}, and needs none"


def main():
    argparse.ArgumentParser(description=__doc__, formatter_class=argparse.RawDescriptionHelpFormatter).parse_args()
    os.chdir(os.path.join(os.path.dirname(os.path.abspath(__file__)), ".."))
    found = list(findings())
    print("\n".join(found) or "crate_edges: ok")
    return 1 if found else 0


if __name__ == "__main__":
    sys.exit(main())
