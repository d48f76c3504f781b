#!/usr/bin/env python3
"""Cuts each text of the example, a source table with its script, and a journal, at each byte, and compares what the built program does with each part with what
it has to do.

    scripts/cut_texts.py [PROGRAM]

PROGRAM is the built program, by default crates/qserv_cli/out/qserv_cli, where the whole check leaves it.

Of a cut both parts are texts: the bytes before it, and those after it. The program is given each part in the place of the whole
text, the others as they are: it reports, explains and answers, with sources and without. A part of the journal it checks. What it
has to do is computed here from the rules in docs/FORMATS.md: the first fault of the text (`text_faults.py`), or what is written for the
sky, the tables and the script that the text contains (`flat_answers.py`, `flat_children.py`, `session_ends.py`), or for the journal
(`journals.py`). The status,
standard output and standard error are compared byte by byte, so nothing is on standard output unless the status is 0.

It prints the first runs that ended otherwise, and then how many ended how. The status is 0 where none ended otherwise, and 1
else, also where there is no program. It writes into a temporary folder alone.
"""
import argparse
import collections
import concurrent.futures
import functools
import os
import subprocess
import sys
import tempfile

import flat_answers
import flat_children
import journals
import session_ends
import text_faults
import worked_children
import worked_runs
from random_worlds import Chunk

HERE = os.path.dirname(os.path.abspath(__file__))
PROGRAM = os.path.join(HERE, "..", "crates", "qserv_cli", "out", "qserv_cli")
EXAMPLES = os.path.join(HERE, "..", "examples")
NAMES = {"sky": "sky.txt", "csv": "catalogue.csv", "script": "script.sql"}
FORMS = [["load", "sky", "csv"], ["explain", "sky", "csv", "script"], ["query", "sky", "csv", "script", "0"], ["check", "journal"]]
FORMS += [["sources", "sky", "csv", "measured", "children", "0"]]
# a script over the example's catalogue and five sources
CHILDREN = f"""{worked_children.GAINS}
SELECT s.t AS k,s.sourceId {worked_children.JOINED} AND (o.kind=1 OR s.flux<12) ORDER BY k DESC LIMIT 2
"""
# how many runs that differ are printed; far more seconds than a run takes
SHOWN, SECONDS = 5, 60


class World:
    """A sky and a table, as `flat_answers.py` wants them."""

    def __init__(self, sky, table):
        self.sky, (self.names, self.rows) = sky, table
        self.chunks = dict(enumerate(Chunk(stripe, wedge) for stripe in sky.stripes for wedge in range(stripe.chunks)))
        self.chunk_of = {row[0]: sky.place(tuple(row[1:4]))[0] for row in self.rows}


@functools.lru_cache(maxsize=8)
def world_of(sky, csv):
    """The world of two texts; the first fault of the first that has one is raised."""
    plan = text_faults.sky_of(sky)
    return World(plan, text_faults.table_of(csv))


@functools.lru_cache(maxsize=8)
def children_of(sky, csv, measured):
    return flat_children.Children(world_of(sky, csv), *text_faults.sources_of(measured))


@functools.cache
def child_block_of(sky, csv, measured, line):
    return session_ends.asked(line, children_of(sky, csv, measured), flat_children.ChildBound)[0]


@functools.cache
def block_of(sky, csv, line):
    """What is written for a query that no line cancels."""
    return session_ends.asked(line, world_of(sky, csv))[0]


@functools.cache
def explained(sky, csv, line):
    return flat_answers.block(lambda: flat_answers.Explained(line, world_of(sky, csv)).lines())


def wanted(form, texts):
    """The status, the output and the text on standard error that a run has to end with."""
    if form[0] == "check":
        status, out, err = journals.told(texts["journal"].encode("latin-1"))
        return status, out.decode("latin-1"), err.decode("latin-1")
    # what makes a world, what makes a query's lines over it, and of which texts
    world_by, made = world_of, {"query": block_of, "explain": explained}.get(form[0])
    places, script = [texts["sky"], texts["csv"]], "script"
    if form[0] == "sources":
        world_by, made, script = children_of, child_block_of, "children"
        places.append(texts["measured"])
    try:
        world = world_by(*places)
        if form[0] == "load":
            return 0, flat_answers.report(world), ""
        # the scripts neither wait nor cancel, so each of their steps is a query
        lines = [line for word, line in session_ends.steps_of(text_faults.script_of(texts[script])) if word == "query"]
    except text_faults.Faulty as fault:
        return fault.status, "", fault.line + "\n"
    return 0, flat_answers.text_of(made(*places, line) for line in lines), ""


def ended(program, folder, words):
    end = subprocess.run([program, *words], cwd=folder, capture_output=True, timeout=SECONDS)
    return end.returncode, end.stdout.decode("latin-1"), end.stderr.decode("latin-1")


def compared(program, folder, texts, name, number, part):
    """The status of each run over a part of a text, and how a run ended that ended otherwise, with what is wanted."""
    cut, found = f"{name}-{number}", []
    with open(os.path.join(folder, cut), "w", encoding="latin-1", newline="") as file:
        file.write(part)
    for form in FORMS:
        if name not in form:
            continue
        told = ended(program, folder, [cut if word == name else word for word in form])
        want = wanted(form, {**texts, name: part})
        found.append((told[0], None if told == want else f"{form[0]} {cut}: {told}\n  wanted: {want}\n  the text: {part!r}"))
    os.remove(os.path.join(folder, cut))
    return found


def parts_of(text):
    """The text before and after each cut; the whole and the empty text among them."""
    for place in range(len(text) + 1):
        yield text[:place]
        yield text[place:]


def compare(program, folder):
    """How many runs ended with each status, and how those ended that ended otherwise."""
    texts = {"journal": worked_runs.BOARD, "measured": worked_children.FIVE, "children": CHILDREN}
    for name, file_name in NAMES.items():
        with open(os.path.join(EXAMPLES, file_name), encoding="latin-1", newline="") as file:
            texts[name] = file.read()
    for name, text in texts.items():
        with open(os.path.join(folder, name), "w", encoding="latin-1", newline="") as file:
            file.write(text)
    with concurrent.futures.ThreadPoolExecutor(os.cpu_count()) as pool:
        jobs = [
            pool.submit(compared, program, folder, texts, name, number, part)
            for name in texts
            for number, part in enumerate(parts_of(texts[name]))
        ]
        runs = [run for job in jobs for run in job.result()]
    return collections.Counter(status for status, _ in runs), [other for _, other in runs if other]


def main():
    words = argparse.ArgumentParser(description=__doc__, formatter_class=argparse.RawDescriptionHelpFormatter)
    words.add_argument("program", nargs="?", default=PROGRAM)
    program = os.path.abspath(words.parse_args().program)
    if not (os.path.isfile(program) and os.access(program, os.X_OK)):
        print(f"cut_texts: there is no built program at {os.path.relpath(program)}")
        return 1
    with tempfile.TemporaryDirectory() as folder:
        counts, others = compare(program, folder)
    for other in others[:SHOWN]:
        print(f"cut_texts: {other}")
    told = ", ".join(f"{count} with status {status}" for status, count in sorted(counts.items()))
    print(f"cut_texts: {'not ok' if others else 'ok'}, {sum(counts.values())} runs ended: {told}; {len(others)} otherwise")
    return 1 if others else 0


if __name__ == "__main__":
    sys.exit(main())
