#!/usr/bin/env python3
"""Runs the built program over worked texts, and compares what it writes with what was found by hand.

    scripts/worked_rows.py [PROGRAM]

PROGRAM is the built program, by default crates/qserv_cli/out/qserv_cli, where the whole check leaves it.

The rows are in the files scripts/worked/*.rows. A line `[FORMS: SKY CSV]` begins a part: the forms that are run, `query`,
`explain` or both, over a sky plan and a catalogue of that folder. In a part each line that isn't indented is a query, and the
indented lines after it are its block; lines with a # at their head say why it is so. The queries of a part are one script:
it is answered with 0, 1, 4 and 16 workers, by `classes` with 0 and 4, and explained. A few texts are too long to be written down, and are made here.
Runs of other kinds are in scripts/worked_runs.py: sky plans and catalogues with their reports or their first faults, scripts
that wait and cancel, the demo, words of no form, and an outcome of each status that a run can be brought to. Texts at each
limit, and one beyond it, are in scripts/worked_limits.py. A larger sky, whose rows are drawn, is in scripts/worked_world.py,
catalogues of certain lengths in scripts/worked_lanes.py, rows counted by the values of a column in scripts/worked_groups.py, lists of
ids in scripts/worked_ids.py, pairs of neighbours in scripts/worked_pairs.py, as many queries and chunks as there may be in
scripts/worked_laps.py, runs of `sources` in scripts/worked_children.py, runs over pipes in scripts/worked_streams.py, and what the demo
of 20,000 objects and that of as many as there may be have to write in scripts/worked_demo.py.

It prints a line for each run that ended otherwise, with the row and with what is wanted, and then how many rows it has
compared. The status is 0 where none differs, and 1 else, also where there is no program.
"""
import argparse
import collections
import glob
import os
import re
import shutil
import subprocess
import sys
import tempfile

import worked_children
import worked_groups
import worked_ids
import worked_lanes
import worked_limits
import worked_pairs
import worked_runs
import worked_streams
import worked_world

HERE = os.path.dirname(os.path.abspath(__file__))
WORKED = os.path.join(HERE, "worked")
PROGRAM = os.path.join(HERE, "..", "crates", "qserv_cli", "out", "qserv_cli")
HEAD = re.compile(r"\[((?:query|explain)(?: explain)?): ([a-z_.]+) ([a-z_.]+)\]")
WORKERS = ["0", "1", "4", "16"]
BY_CLASS = ["0", "4"]
# far more than any of the runs takes
SECONDS = 600

# where it is, the query's line, and the lines of its block
Row = collections.namedtuple("Row", "at line block")
Part = collections.namedtuple("Part", "forms sky csv rows")


# ---- queries


def parts_of(path):
    """The parts of a file of rows."""
    name, found = os.path.relpath(path, os.path.join(HERE, "..")), []
    with open(path, encoding="latin-1", newline="") as file:
        for number, line in enumerate(file.read().split("\n"), 1):
            head = HEAD.fullmatch(line)
            if head:
                found.append(Part(head[1].split(), head[2], head[3], []))
            elif line.startswith("  "):
                found[-1].rows[-1].block.append(line[2:])
            elif line and not line.startswith("#"):
                found[-1].rows.append(Row(f"{name}:{number}", line, []))
    return found


def long_parts():
    """Queries at the limit of 2,048 tokens, a long name, and more queries than run at once."""
    # SELECT, 1,022 items with 1,021 commas, and four words: 2,048 tokens
    items = "x" + ",x" * 1021
    largest, refused = f"SELECT {items} FROM Object LIMIT 0", ["refused: more than 2048 tokens"]
    answered = [Row("2048 tokens", largest, [items, "0 rows, 3 chunks"])]
    others = [
        Row("2049 tokens", largest + ";", refused),
        # the number of tokens is checked before the brackets; the 33rd that is open is at 32
        Row("2048 brackets", "(" * 2048, ["refused: brackets too deep at 32"]),
        Row("2049 brackets", "(" * 2049, refused),
        # a piece that is longer than the buffer of standard output
        Row("a long name", f"SELECT {'n' * 9000} FROM Object", [f"refused: unknown name {'n' * 9000}"]),
    ]
    counts = [Row("100 queries", "SELECT COUNT(*) FROM Object", ["COUNT(*)", "6", "1 rows, 3 chunks"])] * 100
    texts = ["sky.txt", "catalogue.csv"]
    return [Part(["query"], *texts, answered), Part(["query", "explain"], *texts, others), Part(["query"], *texts, counts)]


# Over 4,097 heights of -1 and 4,096 of 1. A quotient of less than one has a zero before the point, one of less than a tenth has
# zeros after it, and -10000 / 8193, 0 / 2 and 41000000 / 4098 are nearest to -1, 0 and 10005 ten-thousandths.
AVERAGES = [
    ("SELECT AVG(z) FROM Object", ["AVG(z)", "-0.0001", "1 rows, 2 chunks"]),
    ("SELECT AVG(z) FROM Object WHERE objectId IN (10,13)", ["AVG(z)", "0.0000", "1 rows, 2 chunks"]),
    ("SELECT AVG(z+2) FROM Object WHERE z=-1 OR objectId=13", ["AVG(z+2)", "1.0005", "1 rows, 2 chunks"]),
]


def made_parts():
    """The ids and averages of a catalogue of two granules and one row, the close pairs of the drawn world, and tests of columns; and the
    texts that they are over, by their names."""
    rows = [(10 + 3 * number, -1 if number % 2 == 0 else 1) for number in range(8193)]
    granules = "objectId,x,y,z\n" + "".join(f"{number},268435456,0,{z}\n" for number, z in rows)
    # at both ends of a granule and between, those with row numbers 0, 1, 4094 to 4097, 8191 and 8192 among them
    held = [(10, -1), (13, 1), (12292, -1), (12295, 1), (12298, -1), (12301, 1), (24583, 1), (24586, -1)]
    ids = [Row("held ids", one_id(number), ["objectId,z", f"{number},{z}", "1 rows, 1 chunks"]) for number, z in held]
    others = [9, 11, 12296, 12297, 12299, 24585, 24587, 24589]
    ids += [Row("other ids", one_id(number), ["objectId,z", "0 rows, 0 chunks"]) for number in others]
    ids += [Row("averages", *query) for query in AVERAGES]
    pairs = [Row("drawn pairs", *query) for query in worked_world.QUERIES]
    texts = {"granules.csv": granules, "drawn.txt": worked_world.SKY, "drawn.csv": worked_world.CSV}
    found = [Part(["query"], "sky.txt", "granules.csv", ids), Part(["query"], "drawn.txt", "drawn.csv", pairs)]
    texts["lanes.txt"] = worked_lanes.SKY
    for length in worked_lanes.LENGTHS:
        texts[f"{length}.csv"] = worked_lanes.csv(length)
        rows = [Row(f"{length} rows", *query) for query in worked_lanes.queries(length)]
        found.append(Part(["query"], "lanes.txt", f"{length}.csv", rows))
    texts["ids.txt"] = worked_ids.SKY
    for length in worked_ids.LENGTHS:
        texts[f"ids_{length}.csv"] = worked_ids.csv(length)
        rows = [Row(f"ids of {length} rows", *query) for query in worked_ids.queries(length)]
        found.append(Part(["query"], "ids.txt", f"ids_{length}.csv", rows))
    texts["pairs.txt"] = worked_pairs.SKY
    for kind in ("low", "around", "high", "one"):
        texts[f"pairs_{kind}.csv"] = worked_pairs.csv(kind)
        rows = [Row(f"pairs of {kind} ids", *query) for query in worked_pairs.queries(kind)]
        found.append(Part(["query"], "pairs.txt", f"pairs_{kind}.csv", rows))
    texts["groups.txt"], texts["groups.csv"] = worked_groups.SKY, worked_groups.csv()
    for column in worked_groups.COLUMNS:
        rows = [Row(f"counts by {column}", *query) for query in worked_groups.queries(column)]
        found.append(Part(["query"], "groups.txt", "groups.csv", rows))
    return found, texts


def one_id(number):
    return f"SELECT objectId,z FROM Object WHERE objectId IN ({number})"


def parts():
    return [part for path in sorted(glob.glob(os.path.join(WORKED, "*.rows"))) for part in parts_of(path)] + long_parts()


def runs_of(part):
    """The words of each run of a part's script."""
    texts = [part.sky, part.csv, "script"]
    answered = [["query", *texts, workers] for workers in WORKERS] + [["classes", *texts, workers] for workers in BY_CLASS]
    return answered * ("query" in part.forms) + [["explain", *texts]] * ("explain" in part.forms)


def blocks_of(part):
    """The blocks of a part's transcript."""
    return ["\n".join([f"query {number}", *row.block]) + "\n" for number, row in enumerate(part.rows, 1)]


# ---- runs

# whatever is written to the full device fails
FULL = "/dev/full"


def write(folder, name, pieces):
    """Writes a text by its pieces, or one of that many zeros, which takes no room in the folder."""
    with open(os.path.join(folder, name), "w", encoding="latin-1", newline="") as file:
        if isinstance(pieces, int):
            file.truncate(pieces)
        else:
            file.writelines(pieces)


def ended(program, folder, words, out=subprocess.PIPE):
    """The status, the output and the text on standard error of a run; None where it can't be started or doesn't end."""
    try:
        end = subprocess.run([program, *words], cwd=folder, stdout=out, stderr=subprocess.PIPE, timeout=SECONDS)
    except (OSError, subprocess.TimeoutExpired) as wrong:
        print(f"worked_rows: {' '.join(words)}: {wrong}")
        return None
    return end.returncode, (end.stdout or b"").decode("latin-1"), end.stderr.decode("latin-1")


def say(run, at, told, wanted):
    """Tells of the first line in which two texts differ."""
    both = zip(told.split("\n") + [""] * wanted.count("\n"), wanted.split("\n") + [""] * told.count("\n"))
    line, want = next((pair for pair in both if pair[0] != pair[1]), ("", ""))
    print(f"worked_rows: {at}: {' '.join(run.words)}: wrote '{line[:200]}', wanted: '{want[:200]}'")


def first_other(part, told):
    """Where a transcript leaves a part's blocks, what is written from there on, and what is wanted."""
    place = 0
    for row, block in zip(part.rows, blocks_of(part)):
        if not told.startswith(block, place):
            return row.at, told[place : place + len(block)], block
        place += len(block)
    return "behind the last row", told[place:], ""


def is_part_told(program, folder, part):
    """Whether all runs of a part's script end as they have to."""
    script = "".join(row.line + "\n" for row in part.rows)
    wanted = "".join(blocks_of(part))
    found = [is_told(program, folder, worked_runs.done(words, wanted, script=script), part) for words in runs_of(part)]
    return all(found)


def is_told(program, folder, run, part=None, out=subprocess.PIPE):
    """Whether a run ends as it has to; says where it does not. Its texts are there for it alone."""
    for name, pieces in run.texts.items():
        write(folder, name, pieces)
    end = ended(program, folder, run.words, out)
    for name in run.texts:
        os.remove(os.path.join(folder, name))
    if end is None:
        return False
    status, told, err = end
    is_same = (status, err) == (run.status, run.err)
    if not is_same:
        say(run, "status and standard error", f"{status} {err}", f"{run.status} {run.err}")
    if told not in run.outs:
        is_same = False
        say(run, *(first_other(part, told) if part else ("output", told, run.outs[0])))
    return is_same


def is_full_told(program, folder):
    """Whether a failed output is reported."""
    with open(FULL, "wb") as full:
        return is_told(program, folder, worked_runs.OUTPUT_FAILED, out=full)


def are_streams_told(program, folder):
    """Whether a text in pieces is read, and an output that takes a part of each write is whole."""
    wrong = list(worked_streams.wrong(program, folder, worked_runs.SKY, worked_runs.OF_SKY))
    for line in wrong:
        print(f"worked_rows: {line}")
    return not wrong


def are_traces_checked(program, folder):
    """Whether what `trace` writes of a script with a cancel and a wait is a journal that `check` accepts, with its counts."""
    found = []
    for workers in worked_runs.TRACED:
        write(folder, "script", worked_runs.TRACED_SCRIPT)
        end = ended(program, folder, ["trace", *worked_runs.QUERY[1:], workers])
        os.remove(os.path.join(folder, "script"))
        if not end or end[0]:
            print(f"worked_rows: trace with {workers} workers: {end}")
            found.append(False)
            continue
        # its counts are not known beforehand, but that both planned queries are attached is
        counts = collections.Counter(line.split(" ")[1] for line in end[1].splitlines()[1:])
        line = f"ok: {sum(counts.values())} entries, {worked_runs.TRACED_QUERIES} queries, {counts['take']} takes\n"
        found.append(is_told(program, folder, worked_runs.done(worked_runs.CHECK, line, journal=end[1])))
    return all(found)


def compare(program, folder):
    """How many rows there are, and whether all are reported."""
    shutil.copytree(WORKED, folder, dirs_exist_ok=True)
    made, texts = made_parts()
    for name, text in texts.items():
        write(folder, name, text)
    found = [is_full_told(program, folder), are_streams_told(program, folder), are_traces_checked(program, folder)]
    runs = worked_runs.RUNS + worked_limits.runs() + worked_children.runs()
    rows = len(runs) + 3 + len(worked_runs.TRACED)
    for run in runs:
        found.append(is_told(program, folder, run))
    for part in parts() + made:
        found.append(is_part_told(program, folder, part))
        rows += len(part.rows)
    return rows, all(found)


def main():
    words = argparse.ArgumentParser(description=__doc__, formatter_class=argparse.RawDescriptionHelpFormatter)
    words.add_argument("program", nargs="?", default=PROGRAM)
    program = os.path.abspath(words.parse_args().program)
    if not (os.path.isfile(program) and os.access(program, os.X_OK)):
        print(f"worked_rows: there is no built program at {os.path.relpath(program)}")
        return 1
    with tempfile.TemporaryDirectory() as folder:
        rows, is_same = compare(program, folder)
    print(f"worked_rows: {'ok' if is_same else 'not ok'}, {rows} rows")
    return 0 if is_same else 1


if __name__ == "__main__":
    sys.exit(main())
