#!/usr/bin/env python3
"""Writes the table of crates of docs/ARCHITECTURE.md from crates.txt and the first sentence of each crate's root file.

    scripts/crate_table.py            fails where the table is not what it would write, and says in which line
    scripts/crate_table.py --write    writes it

The table is between two marks of the page. It has a line for each crate, grouped as crates.txt groups them, lowest first. Its last
column has the crates that name the crate in crates.txt, in the same order; more than 12 are only counted.
"""
import argparse
import os
import re
import sys

PAGE = "docs/ARCHITECTURE.md"
BEGIN = "<!-- the crates: written by scripts/crate_table.py -->"
END = "<!-- end of the crates -->"
LISTED_MOST = 12
CRATE = re.compile(r"([a-z0-9_]+)[^:]*:(.*)")


def groups():
    """The crates of crates.txt, as (words of the group, pairs of a name and the names that it uses)."""
    found = []
    with open("crates.txt", encoding="utf-8") as file:
        for line in file:
            if line.startswith("#"):
                found.append((line.strip("# \n"), []))
            elif CRATE.match(line):
                name, uses = CRATE.match(line).groups()
                found[-1][1].append((name, uses.split()))
    return found


def sentence(crate):
    """The first sentence of a crate's root file, without its full stop."""
    root = next(name for name in (f"crates/{crate}/src/lib.rt", f"crates/{crate}/src/main.rt") if os.path.isfile(name))
    with open(root, encoding="utf-8") as file:
        lines = [line[3:].strip() for line in file if line.startswith("//!")]
    head = " ".join(lines[: lines.index("")] if "" in lines else lines)
    return re.split(r"\.(?: |$)", head)[0]


def used_by(crate, crates):
    """The crates among these that use a crate, or their number, as the text of a cell."""
    users = [name for name, uses in crates if crate in uses]
    return f"{len(users)} crates" if len(users) > LISTED_MOST else ", ".join(users) or "-"


def table():
    """The lines of the table."""
    grouped = groups()
    every = [crate for _, crates in grouped for crate in crates]
    yield "| Crate | What it is | Used by |"
    yield "|---|---|---|"
    for words, crates in grouped:
        yield f"| *{words}* | | |"
        for crate, _ in crates:
            yield f"| `{crate}` | {sentence(crate)} | {used_by(crate, every)} |"


def main():
    words = argparse.ArgumentParser(description=__doc__, formatter_class=argparse.RawDescriptionHelpFormatter)
    words.add_argument("--write", action="store_true")
    is_writing = words.parse_args().write
    os.chdir(os.path.join(os.path.dirname(os.path.abspath(__file__)), ".."))
    with open(PAGE, encoding="utf-8") as file:
        lines = file.read().splitlines()
    if BEGIN not in lines or END not in lines:
        print(f"{PAGE}: the marks of the table of crates are missing")
        return 1
    begin, end = lines.index(BEGIN) + 1, lines.index(END)
    wanted = list(table())
    if is_writing:
        with open(PAGE, "w", encoding="utf-8") as file:
            file.write("\n".join(lines[:begin] + wanted + lines[end:]) + "\n")
        return 0
    for at, (line, want) in enumerate(zip(lines[begin:end] + [""] * len(wanted), wanted)):
        if line != want:
            print(f"{PAGE}:{begin + at + 1}: the table of crates is old: scripts/crate_table.py --write; wanted: {want}")
            return 1
    if end - begin != len(wanted):
        print(f"{PAGE}: the table of crates has lines too many: scripts/crate_table.py --write")
        return 1
    print("crate_table: ok")
    return 0


if __name__ == "__main__":
    sys.exit(main())
