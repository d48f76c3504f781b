#!/usr/bin/env python3
"""Tries the mutants of each crate after `rt ci`, each in a copy of its crate, and several copies in one check.

    scripts/try_mutants.py [--processes N] [--times] [--unchanged] [CRATE ..]
    scripts/try_mutants.py --list

A mutant is code or a definition with one thing changed, which the prover must refuse. It is a file NAME.edit in crates/C/mutants with
a line `file: src/lib.rt`, or another file of the crate; then pairs of lines `old: TEXT` and `new: TEXT`, where each old text is in
that file exactly once; and a line

    refused: FUNCTION CLAUSE

FUNCTION is the function whose proof must fail, as a check prints it below the crate, and CLAUSE what must not be proved of it, or
the lemma of its proof that must not.

`rt ci` would try the edits of a folder must-fail/. For the first it checks the crate from nothing, for each other it reads the whole
crate once more, and it does not compare the clause. So the crates have no such folder.

Each mutant is made in a copy of its crate, and the copy is a library of another name. A check reads up to MOST copies, of several
crates, over the libraries that `rt ci` proved and left in crates/*/out/rlib. It is of the functions that the mutants name. All other
functions of a copy are stubs (stubs.py): their statements are assumed. Errors name the copy's folder, so each refusal is of its
mutant. That the crate is proved without its mutants is what `rt ci` has shown. A mutant that is not refused so is checked alone, in a
copy without stubs. With --unchanged the same copies are checked without mutants, and no function may be refused. It is run when these
scripts or the toolchain change; the gate does not run it.

A function is proved by its own body and the statements of others. So mutants that change nothing but the body of the function that they
name share a copy, if each names another function and another clause. Of such a mutant only what the check says of its function counts.

It prints a line for each mutant, and those that were not refused last; then the status is 1. With --times it prints the processor
seconds of all checks. Without the libraries it ends with 1, without `rt` with 0, each with a line that says so. It writes into a
temporary folder alone.
"""
import argparse
import concurrent.futures
import functools
import glob
import os
import re
import resource
import shutil
import subprocess
import sys
import tempfile

import mutants
import stubs

# the copies that a check reads, and the memory that it may take
MOST = 24
MEMORY = 6_000_000_000
PARTS = ("src", "specs", "proofs")
# the crate whose libraries the copies are, and its text
TOP = "all_copies"
TOP_TEXT = "//! Has no code: its libraries are the copies that are checked.\n#![tactic(auto)]\n"
# what a check says of a proof file that names what a mutant took away: this refuses nothing
LOST_NAME = "that can be named from here"
# what a check says of a stub that does not fit
UNFIT_STUB = re.compile(r"^\S*/proofs/\S*/Proof\.antt\S*: error.*", re.MULTILINE)
VERDICT = re.compile(r"^only=\d+ (proved|holes)=\d+$", re.MULTILINE)


class Unfit(Exception):
    """A mutant that does not fit its crate, or a check that gave no verdict."""


def refusal_of(path):
    """The function and the clause of a mutant's line `refused:`."""
    with open(path, encoding="utf-8") as file:
        found = re.findall(r"^refused: (\S+) (\S+)$", file.read(), re.MULTILINE)
    if len(found) != 1:
        raise Unfit(f"{path}: it has not one line 'refused: FUNCTION CLAUSE'")
    return found[0]


def changed_bodies(text, new):
    """The functions whose bodies differ, if the texts have the same functions in the same order."""
    both = zip(stubs.bodies(text), stubs.bodies(new))
    return {name for (name, begin, end), (_, other, last) in both if text[begin:end] != new[other:last]}


def is_of_its_body(tried):
    """Whether a mutant changes the body of the function that it names and nothing else: no other body, statement, definition,
    constant or proof."""
    mutant, function, _ = tried
    if not mutant.file.startswith("src/"):
        return False
    with open(f"crates/{mutant.crate}/{mutant.file}", encoding="utf-8") as file:
        text = file.read()
    new = changed(mutant, text)
    return stubs.without_any_body(text) == stubs.without_any_body(new) and changed_bodies(text, new) == {function.rpartition("::")[2]}


def share(copy, tried):
    """Whether a mutant can be made in a copy beside these."""
    return is_of_its_body(tried) and all(is_of_its_body(it) and it[1] != tried[1] and it[2] != tried[2] for it in copy)


def copies(crate):
    """The mutants of a crate, by the copies that they are made in."""
    found = []
    for tried in mutants_of(crate):
        shared = next((copy for copy in found if share(copy, tried)), None)
        if shared is None:
            found.append([tried])
        else:
            shared.append(tried)
    return found


def crates_with_mutants():
    return sorted({path.split("/")[1] for path in glob.glob("crates/*/mutants/*.edit")})


def mutants_of(crate):
    """The mutants of a crate, each with its function and its clause."""
    paths = sorted(glob.glob(f"crates/{crate}/mutants/*.edit"))
    return [(mutants.edit_of(path), *refusal_of(path)) for path in paths]


@functools.cache
def edges():
    """The libraries that each crate names in crates.txt."""
    found = {}
    with open("crates.txt", encoding="utf-8") as file:
        for line in file:
            head, colon, names = line.partition("#")[0].partition(":")
            if colon:
                found[head.split()[0]] = names.split()
    return found


def below(crate):
    """The repository's crates below a crate."""
    found = set()
    for name in edges()[crate]:
        if name in edges():
            found |= {name} | below(name)
    return found


def library(crate):
    return os.path.abspath(f"crates/{crate}/out/rlib")


def check_words(crates, kit):
    """The words of a check over the libraries of these crates, as `rt` gives them, but for what looks for empty contracts."""
    words = [f"{kit}/bin/rattle", "check", "--crate-name", TOP, "src/lib.rt", "--extern", f"std={kit}/rlibs/std.rlib"]
    for name in dict.fromkeys(name for crate in crates for name in edges()[crate]):
        words += ["--extern", f"{name}={library(name) if name in edges() else f'{kit}/rlibs'}/{name}.rlib"]
    for folder in [f"{kit}/rlibs", *map(library, sorted(set().union(*map(below, crates))))]:
        words += ["-L", f"dependency={folder}"]
    return [*words, "--antt-project", f"{kit}/rattle/logic/antt-project.json", "--logic-built", f"{kit}/logic_built", "--jobs", "1"]


def changed(mutant, text):
    """The text of a mutant's file with the mutant made."""
    for old, new in mutant.pairs:
        if text.count(old) != 1:
            raise Unfit(f"{mutant.crate}/{mutant.name}: an old text is {text.count(old)} times in {mutant.file}, and not once")
        text = text.replace(old, new)
    return text


def make(mutant, room):
    """Makes a mutant in a copy of its crate."""
    with open(f"{room}/{mutant.file}", encoding="utf-8") as file:
        text = changed(mutant, file.read())
    with open(f"{room}/{mutant.file}", "w", encoding="utf-8") as file:
        file.write(text)


def rename(room, crate, name):
    """Gives the copy of a crate another name: its texts name their own modules by it."""
    own = re.compile(rf"\bRattle\.{crate}\.|\b{crate}::")
    for path in (it for part in PARTS for it in glob.glob(f"{room}/{part}/**/*", recursive=True) if os.path.isfile(it)):
        with open(path, encoding="utf-8") as file:
            text = file.read()
        with open(path, "w", encoding="utf-8") as file:
            file.write(own.sub(lambda found: found[0].replace(crate, name), text))


def copy_of(copy, room, name, has_stubs, is_unchanged):
    """Makes the copy of a crate with these mutants: a library of this name in this folder."""
    crate = copy[0][0].crate
    for part in PARTS:
        if os.path.isdir(f"crates/{crate}/{part}"):
            shutil.copytree(f"crates/{crate}/{part}", f"{room}/{part}")
    if not is_unchanged:
        for mutant, _, _ in copy:
            make(mutant, room)
    if has_stubs:
        try:
            stubs.put(crate, f"{library(crate)}/{crate}.rlib", room, {function for _, function, _ in copy})
        except (OSError, LookupError, TypeError, ValueError) as fault:
            raise Unfit(f"{crate}: no stubs: {fault}") from fault
    rename(room, crate, name)


def told_of(copy, name, room, lines):
    """For each mutant of a copy what a check says of it: the line of its function and those that name the folder, or the function's
    own folder of proofs if the copy has other mutants."""
    told = []
    for _, function, _ in copy:
        start, folder = f"fn {name}::{function}: ", room if len(copy) == 1 else f"{room}/proofs/{function.replace('::', '/')}"
        told.append([line for line in lines if line.startswith(start) or f"{folder}/" in line])
    return told


def output_of(batch, kit, has_stubs, is_unchanged):
    """For each mutant of a batch of copies what a check says of it."""
    with tempfile.TemporaryDirectory(prefix="mutants-") as room:
        os.makedirs(f"{room}/{TOP}/src")
        with open(f"{room}/{TOP}/src/lib.rt", "w", encoding="utf-8") as file:
            file.write(TOP_TEXT)
        words = check_words([copy[0][0].crate for copy in batch], kit)
        names = [f"copy_{place}" for place, _ in enumerate(batch)]
        for copy, name in zip(batch, names):
            copy_of(copy, f"{room}/{name}", name, has_stubs, is_unchanged)
            words += ["--lib", f"{name}={room}/{name}/src/lib.rt"]
            words += [word for _, function, _ in copy for word in ("--only", f"{name}::{function}")]
        words += ["--allow-holes"] if has_stubs else []
        ran = subprocess.run(words, cwd=f"{room}/{TOP}", stdin=subprocess.DEVNULL, stdout=subprocess.PIPE, stderr=subprocess.STDOUT, text=True, errors="replace", check=False)
        lines = ran.stdout.splitlines()
        if not VERDICT.search(ran.stdout):
            raise Unfit("the check gave no verdict; its last lines:\n" + "\n".join(lines[-5:]))
        if has_stubs and UNFIT_STUB.search(ran.stdout):
            raise Unfit(f"a stub does not fit: {UNFIT_STUB.search(ran.stdout)[0]}")
        lines = [line for line in lines if LOST_NAME not in line]
        return [told for copy, name in zip(batch, names) for told in told_of(copy, name, f"{room}/{name}", lines)]


def is_refused(clause, lines):
    """Whether the function of a copy is not proved, for this clause."""
    is_open = any(re.match(r"fn \S+: (not proved|no proof)", line) for line in lines)
    return is_open and any(re.search(rf"`(\S+\.)?{re.escape(clause)}`", line) for line in lines)


def is_proved(lines):
    """Whether nothing of the function is refused, with or without a hole below it."""
    return any(re.match(r"fn \S+: (proved|no holes|depends on a hole)", line) for line in lines)


def verdict(tried, lines, is_unchanged):
    """Whether the mutant is refused, or its function proved without it, and what to say."""
    mutant, function, clause = tried
    label = f"{mutant.crate}/{mutant.name}"
    if is_unchanged:
        return is_proved(lines), f"{label}: {'proved' if is_proved(lines) else 'REFUSED'} without the mutant: `{function}`"
    if is_refused(clause, lines):
        return True, f"{label}: refused at `{function}`: `{clause}`"
    said = "\n    ".join(line[:300] for line in lines) or "nothing was said of the function"
    return False, f"{label}: NOT REFUSED at `{function}`: `{clause}`; the check says:\n    {said}"


def verdicts(batch, kit, is_unchanged, has_stubs=True):
    """For each mutant of a batch of copies whether all is well, and what to say. What is not well is checked alone, at last without
    stubs."""
    tries = [tried for copy in batch for tried in copy]
    try:
        outputs = output_of(batch, kit, has_stubs, is_unchanged)
        found = [verdict(tried, lines, is_unchanged) for tried, lines in zip(tries, outputs)]
    except Unfit as fault:
        found = [(False, f"{mutant.crate}/{mutant.name}: {fault}") for mutant, _, _ in tries]
    if len(tries) == 1 and not has_stubs:
        return found
    again = [[[tried]] for tried, (well, _) in zip(tries, found) if not well]
    return [it for it in found if it[0]] + [it for one in again for it in verdicts(one, kit, is_unchanged, has_stubs=len(tries) > 1)]


def batches(crates):
    """The copies by checks, those of crates with few libraries first."""
    found = [it for crate in sorted(crates, key=lambda crate: (len(below(crate)), crate)) for it in copies(crate)]
    return [found[at : at + MOST] for at in range(0, len(found), MOST)]


def processes():
    """How many checks run at a time: one a processor, as many as memory holds."""
    with open("/proc/meminfo", encoding="ascii") as file:
        free = 1024 * int(re.search(r"MemAvailable:\s+(\d+)", file.read())[1])
    return max(1, min(len(os.sched_getaffinity(0)), free // MEMORY))


def unbuilt(crates):
    """The crates whose library is lacking."""
    needed = {*crates}.union(*map(below, crates))
    return sorted(it for it in needed if not os.path.isdir(f"{library(it)}/{it}.rlib"))


def run(crates, number, kit, is_unchanged):
    """Tries the mutants of the crates, or their functions unchanged, prints what was said of each, and returns the status. The checks
    of the most libraries begin first."""
    failed, checks = [], batches(crates)
    with concurrent.futures.ThreadPoolExecutor(number) as pool:
        tries = [pool.submit(verdicts, batch, kit, is_unchanged) for batch in reversed(checks)]
        for one in concurrent.futures.as_completed(tries):
            for well, told in one.result():
                print(told, flush=True)
                failed += [] if well else [told]
    count = sum(len(copy) for batch in checks for copy in batch)
    told = "functions proved unchanged" if is_unchanged else "mutants refused"
    print(f"try_mutants: {count - len(failed)} of {count} {told}, in {len(checks)} checks of {len(crates)} crates")
    for told in failed:
        print(told)
    return 1 if failed else 0


def words():
    parser = argparse.ArgumentParser(description=__doc__, formatter_class=argparse.RawDescriptionHelpFormatter)
    parser.add_argument("crates", nargs="*", metavar="CRATE")
    parser.add_argument("--processes", type=int, metavar="N")
    parser.add_argument("--times", action="store_true")
    parser.add_argument("--unchanged", action="store_true")
    parser.add_argument("--list", action="store_true")
    return parser.parse_args()


def main():
    given = words()
    os.chdir(os.path.join(os.path.dirname(os.path.abspath(__file__)), ".."))
    crates = given.crates or crates_with_mutants()
    if given.list:
        for crate in crates:
            for mutant, function, clause in mutants_of(crate):
                print(f"{crate}/{mutant.name}: {function} {clause}")
        return 0
    if shutil.which("rt") is None:
        print("try_mutants: skipped: rt is not on the PATH")
        return 0
    lacking = unbuilt(crates)
    if lacking:
        print(f"try_mutants: there is no library of {', '.join(lacking)}: run rt ci first")
        return 1
    page = subprocess.run(["rt", "doc"], stdout=subprocess.PIPE, text=True, check=True).stdout.strip()
    status = run(crates, given.processes or processes(), os.path.dirname(page), given.unchanged)
    if given.times:
        used = resource.getrusage(resource.RUSAGE_CHILDREN)
        print(f"try_mutants: {used.ru_utime + used.ru_stime:.0f} processor seconds")
    return status


if __name__ == "__main__":
    try:
        sys.exit(main())
    except Unfit as unfit:
        sys.exit(f"try_mutants: {unfit}")
