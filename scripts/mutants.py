#!/usr/bin/env python3
"""Tries mutants by their names on a copy of the repository: code with one thing changed, which the prover must refuse.

    scripts/mutants.py [--into FOLDER] NAME..       those of these names, each as NAME or CRATE/NAME
    scripts/mutants.py [--into FOLDER] --crate C    all those of a crate
    scripts/mutants.py --list                       what there is
    scripts/mutants.py --check                      whether each idea of docs/proofs/ideas.md fits the code; no prover runs

A mutant is an edit of a crate, NAME.edit in crates/C/mutants, or an idea of docs/proofs/ideas.md, whose head says how a row is
read. The gate tries the edits; this is no part of it, and tries the ideas too, for whoever changes a crate or doubts a mutant.
It copies the repository, with the proofs that are kept, writes the mutants as the only edits of their crates there, in the
folder must-fail/, and runs `rt must-fail` on each crate: it takes as long as the checks of the crate, a mutant each. For each
mutant it prints what the prover said of it. It ends with 1 where one is not refused, or no longer fits: an old text is no
longer in its file exactly once. It writes the folder `mutants` in FOLDER anew, or in a temporary one that it removes.
"""
import argparse
import collections
import glob
import os
import re
import shutil
import subprocess
import sys
import tempfile

IDEAS = "docs/proofs/ideas.md"
# scripts/try_mutants.py tries the edits there
FOLDER = "mutants"
PAIR = re.compile(r"`([^`]+)` → (?:`([^`]+)`|nothing)")
BETWEEN_PAIRS = "; "
# how rt says it
REFUSED = "refused, as it must be: "

# its crate, its name, the file of the crate, the pairs of an old and a new text, and whether it is an idea
Mutant = collections.namedtuple("Mutant", "crate name file pairs is_idea")


class Malformed(Exception):
    """A row or an edit that cannot be read."""


def text_of(cell):
    return cell.replace("\\|", "|")


def cell_of(text):
    return text.replace("|", "\\|")


def pairs_of(cell):
    """The pairs that a cell writes."""
    found = [(text_of(old), text_of(new)) for old, new in PAIR.findall(cell)]
    if not found or written(found) != cell:
        raise Malformed("the third cell is no pairs of texts")
    return found


def written(pairs):
    """The cell of these pairs."""
    return BETWEEN_PAIRS.join(f"`{cell_of(old)}` → " + (f"`{cell_of(new)}`" if new else "nothing") for old, new in pairs)


def idea_of(crate, line):
    """The idea of a row."""
    cells = line.removeprefix("| ").removesuffix(" |").split(" | ")
    names = [re.fullmatch(r"`([^`]+)`", cell) for cell in cells[:2]]
    if len(cells) != 5 or None in names:
        raise Malformed("the row has not its five cells")
    return Mutant(crate, names[0][1], names[1][1], pairs_of(cells[2]), True)


def ideas():
    """The ideas that are kept as text; a row that cannot be read is a Malformed, which names its line."""
    crate = None
    with open(IDEAS, encoding="utf-8") as file:
        for number, line in enumerate(file, 1):
            line = line.rstrip("\n")
            if line.startswith("## "):
                crate = line[len("## ") :].strip("`")
            if not line.startswith("| `"):
                continue
            try:
                yield idea_of(crate, line)
            except Malformed as fault:
                raise Malformed(f"{IDEAS}:{number}: {fault}") from None


def edit_of(path):
    """The mutant of an edit of a crate."""
    file, old, pairs = None, None, []
    with open(path, encoding="utf-8") as lines:
        for line in lines.read().split("\n"):
            if line.startswith("file: "):
                file = line[len("file: ") :].strip()
            elif line.startswith("old: "):
                old = line[len("old: ") :]
            elif line.startswith("new:"):
                pairs.append((old, line[len("new:") :].removeprefix(" ")))
    _, crate, _, name = path.split("/")
    return Mutant(crate, name.removesuffix(".edit"), file, pairs, False)


def edits():
    return [edit_of(path) for path in sorted(glob.glob(f"crates/*/{FOLDER}/*.edit"))]


def misfit(mutant):
    """Why the mutant no longer fits the code, or None: the pairs are made in turn, each old text once in the file then."""
    path = f"crates/{mutant.crate}/{mutant.file}"
    if not os.path.isfile(path):
        return f"there is no {path}"
    with open(path, encoding="utf-8") as file:
        text = file.read()
    for old, new in mutant.pairs:
        if text.count(old) != 1:
            return f"an old text is {text.count(old)} times in {path}, and not once: {old.strip()}"
        text = text.replace(old, new)
    return None


def misfits():
    """The findings of the ideas: rows that cannot be read, names that are there twice, texts that no longer fit."""
    try:
        kept = list(ideas())
    except Malformed as fault:
        return [str(fault)]
    count = collections.Counter((it.crate, it.name) for it in kept + edits())
    twice = [f"{crate}/{name}: is the name of two mutants of the crate" for (crate, name), times in count.items() if times > 1]
    return twice + [f"{it.crate}/{it.name}: {IDEAS}: {misfit(it)}" for it in kept if misfit(it)]


def edit_text(mutant):
    """The mutant as the text of a must-fail edit."""
    lines = [f"file: {mutant.file}"]
    for old, new in mutant.pairs:
        lines += [f"old: {old}", f"new: {new}"]
    return "\n".join(lines) + "\n"


def lay_out(mutants, copy):
    """Writes the mutants as the only edits of their crates in the copy."""
    for crate in {it.crate for it in mutants}:
        shutil.rmtree(f"{copy}/crates/{crate}/must-fail", ignore_errors=True)
        os.mkdir(f"{copy}/crates/{crate}/must-fail")
    for mutant in mutants:
        with open(f"{copy}/crates/{mutant.crate}/must-fail/{mutant.name}.edit", "w", encoding="utf-8") as file:
            file.write(edit_text(mutant))


def copied(folder):
    """A copy of the repository in the folder, without its history and its built program."""
    copy = os.path.join(folder, "mutants")
    if os.path.realpath(copy).startswith(os.path.realpath(".") + os.sep):
        sys.exit("mutants: the folder is in the repository, which would be copied into itself")
    shutil.rmtree(copy, ignore_errors=True)
    # times are kept: a proof is kept for a text that has not changed
    shutil.copytree(".", copy, symlinks=True, ignore=shutil.ignore_patterns(".git", ".qserv"))
    return copy


def tried(mutants, copy):
    """Tries the mutants of one crate, and returns whether each is refused, with what the prover's last lines say."""
    lay_out(mutants, copy)
    words = ["rt", "must-fail", mutants[0].crate]
    ran = subprocess.run(words, cwd=copy, stdout=subprocess.PIPE, stderr=subprocess.STDOUT, text=True, errors="replace", check=False)
    for mutant in mutants:
        told = verdict(f"must-fail {mutant.crate}/{mutant.name}.edit: ", ran.stdout)
        yield mutant, told.startswith(REFUSED), told.removeprefix(REFUSED)


def verdict(label, output):
    """What was said of the edit with this label, up to the next one's; else the last lines of all."""
    at = output.find(label)
    if at < 0:
        return "no verdict; the last lines: " + "\n".join(output.splitlines()[-6:])
    return output[at + len(label) :].split("\nrt: must-fail ")[0].rstrip()


def chosen(names, crate):
    """The mutants of these names, or of a crate; a name that none has ends the script."""
    known = [*edits(), *ideas()]
    if crate is not None:
        found = [it for it in known if it.crate == crate]
        if not found:
            sys.exit(f"mutants: no mutant is of a crate {crate}")
        return found
    for name in names:
        if not any(name in (it.name, f"{it.crate}/{it.name}") for it in known):
            sys.exit(f"mutants: no mutant has the name {name}")
    return [it for it in known if it.name in names or f"{it.crate}/{it.name}" in names]


def try_all(mutants, folder):
    """Tries the mutants in a copy in this folder, and returns how many were not refused."""
    copy = copied(folder)
    failed = 0
    for crate in sorted({it.crate for it in mutants}):
        for mutant, is_refused, told in tried([it for it in mutants if it.crate == crate], copy):
            print(f"{crate}/{mutant.name}: {'refused' if is_refused else 'NOT refused'}: {told}", flush=True)
            failed += not is_refused
    return failed


def run(mutants, into):
    """Tries those of the mutants that fit, and returns the status."""
    left_out = [it for it in mutants if misfit(it)]
    for mutant in left_out:
        print(f"{mutant.crate}/{mutant.name}: no longer fits: {misfit(mutant)}")
    fitting = [it for it in mutants if it not in left_out]
    failed = 0
    if fitting and into is not None:
        failed = try_all(fitting, into)
    elif fitting:
        with tempfile.TemporaryDirectory(prefix="mutants-") as folder:
            failed = try_all(fitting, folder)
    return 1 if failed or left_out else 0


def check():
    found = misfits()
    for finding in found:
        print(finding)
    print(f"mutants: findings: {len(found)}" if found else f"mutants: all {len(list(ideas()))} ideas fit the code")
    return 1 if found else 0


def words():
    parser = argparse.ArgumentParser(description=__doc__, formatter_class=argparse.RawDescriptionHelpFormatter)
    parser.add_argument("names", nargs="*", metavar="NAME")
    parser.add_argument("--crate", metavar="C")
    parser.add_argument("--into", metavar="FOLDER")
    parser.add_argument("--list", action="store_true")
    parser.add_argument("--check", action="store_true")
    given = parser.parse_args()
    if not (given.names or given.crate or given.list or given.check):
        parser.error("give a name, --crate, --list or --check")
    return given


def main():
    given = words()
    into = given.into and os.path.abspath(given.into)
    os.chdir(os.path.join(os.path.dirname(os.path.abspath(__file__)), ".."))
    if given.check:
        return check()
    if given.list:
        for mutant in [*edits(), *ideas()]:
            print(f"{mutant.crate}/{mutant.name}" + (" (an idea)" if mutant.is_idea else ""))
        return 0
    found = chosen(given.names, given.crate)
    if shutil.which("rt") is None:
        print("mutants: skipped: rt is not on the PATH")
        return 0
    return run(found, into)


if __name__ == "__main__":
    try:
        sys.exit(main())
    except Malformed as malformed:
        sys.exit(f"mutants: {malformed}")
