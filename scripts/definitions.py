#!/usr/bin/env python3
"""Lists the definitions that the headline rests on: the files of specs/ that the contract of the top call imports, directly or
through others. Whoever believes these, and the toolchain, need not read the code or the proofs.

    scripts/definitions.py            fails if the list in docs/PROOFS.md is not what it would write
    scripts/definitions.py --write    writes it

Crates are in reading order, from the contract downwards, and so are a crate's files. Lines are counted without blank lines
and imports.
"""
import argparse
import os
import re
import sys

PAGE = "docs/PROOFS.md"
BEGIN = "<!-- the definitions: written by scripts/definitions.py -->"
END = "<!-- end of the definitions -->"
ROOTS = ["Words", "WordForms", "Explained", "Completes"]
IMPORT = re.compile(r"^use Rattle\.([a-z0-9_]+)\.specs\.([A-Za-z0-9_.]+)", re.MULTILINE)


def read(name):
    with open(name, encoding="utf-8") as file:
        return file.read()


def file_of(crate, module):
    """The file of specs/ that an import names, or None for a type that the code declares."""
    parts = module.strip(".").split(".")
    if parts[0] == "declared":
        return None
    names = (f"crates/{crate}/specs/{'/'.join(parts[:n])}.antt" for n in range(len(parts), 0, -1))
    return next((name for name in names if os.path.isfile(name)), None)


def reached():
    """The files that the roots reach, each after all that it imports."""
    order, seen = [], set()

    def walk(name):
        if name in seen:
            return
        seen.add(name)
        for crate, module in IMPORT.findall(read(name)):
            below = file_of(crate, module)
            if below:
                walk(below)
        order.append(name)

    for root in ROOTS:
        walk(f"crates/top_call/specs/{root}.antt")
    return order


def size(name):
    return sum(1 for line in read(name).splitlines() if line.strip() and not line.startswith("use "))


def table():
    files = {}
    for name in reversed(reached()):
        files.setdefault(name.split("/")[1], []).append(name)
    yield "| Crate | Files of `specs/`, in reading order | Lines |"
    yield "|---|---|---|"
    for crate, names in files.items():
        short = ", ".join(f"`{os.path.basename(name)[: -len('.antt')]}`" for name in names)
        yield f"| `{crate}` | {short} | {sum(map(size, names)):,} |"
    names = [name for some in files.values() for name in some]
    yield f"| all | {len(names)} files | {sum(map(size, names)):,} |"


def main():
    words = argparse.ArgumentParser(description=__doc__, formatter_class=argparse.RawDescriptionHelpFormatter)
    words.add_argument("--write", action="store_true")
    write = words.parse_args().write
    os.chdir(os.path.join(os.path.dirname(os.path.abspath(__file__)), ".."))
    page = read(PAGE)
    begin, end = page.index(BEGIN) + len(BEGIN), page.index(END)
    wanted = "\n" + "\n".join(table()) + "\n"
    if write:
        with open(PAGE, "w", encoding="utf-8") as file:
            file.write(page[:begin] + wanted + page[end:])
        return 0
    if page[begin:end] != wanted:
        print(f"{PAGE}: the list of definitions is not that of the sources: run scripts/definitions.py --write")
        return 1
    print("definitions: ok")
    return 0


if __name__ == "__main__":
    sys.exit(main())
