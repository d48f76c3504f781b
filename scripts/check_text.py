#!/usr/bin/env python3
"""Reads the repository's own text and fails on what must not be in it.

    scripts/check_text.py

It prints each finding, or 'check_text: ok', and writes nothing. It looks for:
- a label of a planning paper, such as a letter with a number: a rule is stated where it is used;
- a path of one machine;
- a mark of a merge that is not done, as git puts it at the head of a line;
- an .rt or .antt file outside of a crate's src/, specs/ and proofs/;
- a clause of more than 100 columns;
- a mutant that the claims of docs/proofs don't name in as many rows as there are crates with that edit;
- a mutant that a claim names and no crate has;
- an idea of a mutant, in docs/proofs/ideas.md, that cannot be read or no longer fits the code;
- a call, a clause or a word that a claim names and that is neither in the crates of its section nor in a crate that
  the row names.
"""
import argparse
import collections
import glob
import os
import re
import subprocess
import sys

import mutants

LABEL = re.compile(
    r"(?<![\w.#-])(?:(?:document|paper) 0[1-4]\b|(?:T[1-5]\.[1-9]|[DRW][1-9][0-9]?b?|H[1-5])(?![\w.%]))"
    r"|\b0[1-4] section"
)
# seven of one sign: with a blank after them, or the seven of the middle alone
MERGE = re.compile(r"(?:[<>|]{7} |={7}$)")
MACHINE = re.compile(r"(?<![\w.])/(?:work|opt|tmp|root|home)/")
CLAUSE = re.compile(r"\s*(?:requires|ensures)\*?\b")
CRATE = re.compile(r"crates/[a-z0-9_]+/(?:src|specs|proofs)/")
NAME = re.compile(r"[A-Za-z_][A-Za-z0-9_']*")
WIDEST_CLAUSE = 100


def names():
    listed = subprocess.run(
        ["git", "ls-files", "-co", "--exclude-standard"], capture_output=True, text=True, check=True
    )
    return [name for name in listed.stdout.splitlines() if os.path.isfile(name)]


def findings(name, lines):
    """The places of a file that must not be there, as (what, line number, line)."""
    for number, line in enumerate(lines, 1):
        if LABEL.search(line):
            yield "names a label of a planning paper", number, line
        if MACHINE.search(line):
            yield "names a path of one machine", number, line
        if MERGE.match(line):
            yield "is left of a merge", number, line
        if name.endswith(".rt") and CLAUSE.match(line) and len(line) > WIDEST_CLAUSE:
            yield f"has a clause of {len(line)} columns", number, line


def claims():
    """The rows of the tables of claims, as (page, line number, crates of the section, cells)."""
    for page in sorted(set(glob.glob("docs/proofs/*.md")) - {mutants.IDEAS}):  # its rows are no claims
        section = []
        with open(page, encoding="utf-8") as file:
            for number, line in enumerate(file, 1):
                if line.startswith("## "):
                    section = re.findall(r"`([a-z0-9_]+)`", line)
                row = line.strip("| \n").split(" | ")
                if line.startswith("| ") and len(row) == 5:
                    yield page, number, section, row


def claimed_edits():
    """The mutants that the rows of the table of claims name: those in the cell before the last."""
    cells = [row[3] for _, _, _, row in claims()]
    return collections.Counter(name for cell in cells for name in set(re.findall(r"`([a-z0-9_]+)`", cell)))


def names_in(crate):
    """The names that a crate's code, definitions and files have."""
    found = {crate}
    for name in glob.glob(f"crates/{crate}/src/**/*.rt", recursive=True) + glob.glob(f"crates/{crate}/specs/**/*.antt", recursive=True):
        found.add(os.path.basename(name).split(".")[0])
        with open(name, encoding="utf-8") as file:
            found.update(NAME.findall(file.read()))
    return found


def claim_findings():
    """The calls, clauses and words of the table of claims that are nowhere in the crates they are said of."""
    there = {crate: names_in(crate) for crate in os.listdir("crates")}
    for page, number, section, row in claims():
        cells = " ".join(row[1:3])
        said_of = [crate for crate in there if crate in section or crate in NAME.findall(cells)]
        known = set().union(*(there[crate] for crate in said_of))
        for name in NAME.findall(" ".join(re.findall(r"`([^`]+)`", cells))):
            if name not in known:
                yield f"{page}:{number}: {name} stands in none of the crates of this row"


def edit_findings(listed):
    """Where the mutants and the table of claims disagree."""
    edits = [name for name in listed if name.split("/")[2:3] == [mutants.FOLDER]]
    there = collections.Counter(os.path.basename(name)[: -len(".edit")] for name in edits)
    claimed = claimed_edits()
    for name in sorted(there.keys() | claimed.keys()):
        if claimed[name] < there[name]:
            yield f"{name}: docs/proofs names this mutant in {claimed[name]} rows, {there[name]} crates have it"
        if there[name] == 0:
            yield f"{name}: docs/proofs names this mutant, and no crate has it"


def main():
    argparse.ArgumentParser(description=__doc__, formatter_class=argparse.RawDescriptionHelpFormatter).parse_args()
    os.chdir(os.path.join(os.path.dirname(os.path.abspath(__file__)), ".."))
    count = 0
    listed = names()
    for finding in [*edit_findings(listed), *mutants.misfits(), *claim_findings()]:
        print(finding)
        count += 1
    for name in listed:
        if name.endswith((".rt", ".antt")) and not CRATE.match(name):
            print(f"{name}: stands outside of a crate")
            count += 1
        if name.endswith((".csv", ".png", ".gz")):
            continue
        with open(name, "rb") as file:
            data = file.read()
        if b"\0" in data:
            # a program of release/
            continue
        lines = data.decode(errors="replace").splitlines()
        for what, number, line in findings(name, lines):
            print(f"{name}:{number}: {what}: {line.strip()[:80]}")
            count += 1
    if count == 0:
        print("check_text: ok")
    return 1 if count else 0


if __name__ == "__main__":
    sys.exit(main())
