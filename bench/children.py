#!/usr/bin/env python3
"""Measures what sources cost: their loading, and queries that join them with their objects, beside PostgreSQL and numpy.

    bench/children.py FOLDER [--program FILE] [--rows N] [--sources N] [--times N]

FILE is the built program, by default .qserv/qserv, where ./qserv leaves it. Writes into FOLDER, once, the demo's catalogue of N rows
(1,000,000) and a table of N sources (4,000,000) of four fields, whose objects are drawn. Then it measures, each as the least of N times
(5):

- loading: the user time of one row of the sources, beyond a table without rows, and of one row of the catalogue; and the time by
  the clock of the sources, beyond a table without rows, with no workers and with 3;
- the join with one source in a hundred, and the sources of one object: the time by the clock from the script, which comes when
  everything is loaded, to the last line of the transcript, with no workers and with 3. A script has its query several times, and the
  time is that of one. Of the chunks of the demo's sky the two at the poles have a quarter of all objects each, and the 32 others a
  sixty-fourth; one object is measured in each kind.

Each answer is compared with one from the flat lists. If initdb, pg_ctl and psql are on the PATH, PostgreSQL loads the two tables into
FOLDER, with an index of each id and of the sources' objectId, and its execution time of the same queries is printed beside; by root it is
run as the user nobody. If python3 has numpy, so is what two of its calls take, searchsorted and lexsort, without any text. What is
missing is skipped with a line. The status is 1 if an answer is another, or a line misses what is aimed at. Only figures of an idle
machine count.
"""
import array
import collections
import itertools
import os
import resource
import subprocess
import sys
import time

import classes
import demo_files
import postgres
import program_words

# one flux in a hundred is above this
LEAST = 98999
JOINED = "FROM Object o,Source s WHERE o.objectId=s.objectId"
TEXTS = ["sky.txt", "catalogue.csv", "measured.csv"]
# a query, how often it is in its script, and the milliseconds aimed at; both numbers of workers have the same aim
Line = collections.namedtuple("Line", "name query often most")
WORKERS = [0, 3]


def object_at(rows, is_polar):
    """The first object from the middle of the catalogue on that is in a stripe at a pole, or in none."""
    after = rows // 2 - 1
    return next(row[0] for row in demo_files.rows(rows - after, 1, after) if (abs(row[3]) > 1 << 27) == is_polar)


def lines_of(rows):
    polar, other = (f"SELECT o.objectId,s.sourceId {JOINED} AND o.objectId={object_at(rows, is_polar)}" for is_polar in (True, False))
    return [
        Line("one source in a hundred", f"SELECT o.objectId,s.sourceId {JOINED} AND s.flux>{LEAST}", 8, 60),
        Line("the sources of one object", other, 200, 1),
        Line("the sources of one object at a pole", polar, 100, 1),
    ]


# ---- the texts


def columns(rows, sources):
    """The objectIds, fluxes and times of the sources, whose ids are 1, 2 and so on."""
    draws, found = demo_files.draws(7), [array.array("q") for _ in range(3)]
    for _ in range(sources):
        for column, value in zip(found, (next(draws) % rows + 1, next(draws) % 100000, next(draws) % 1000)):
            column.append(value)
    return found


def write_texts(folder, rows, measured):
    """The demo's texts, the sources, an empty script, and tables without rows."""
    if not os.path.exists(os.path.join(folder, "measured.csv")):
        demo_files.write_all(rows, 1, folder)
        with open(os.path.join(folder, "measured.part"), "w", encoding="ascii") as file:
            file.write("sourceId,objectId,flux,t\n")
            file.writelines("%d,%d,%d,%d\n" % row for row in zip(itertools.count(1), *measured))
        os.rename(os.path.join(folder, "measured.part"), os.path.join(folder, "measured.csv"))
    if not os.path.exists(os.path.join(folder, "pipe")):
        os.mkfifo(os.path.join(folder, "pipe"))
    demo_files.write(folder, "none.sql", "")
    demo_files.write(folder, "no_rows.csv", "objectId,x,y,z,flux,kind\n")
    demo_files.write(folder, "no_sources.csv", "sourceId,objectId,flux,t\n")


def wanted(line, measured):
    """The lines of the answer's rows, from the flat lists; each id up to the number of rows is an object's."""
    objects, fluxes, _ = measured
    if "flux" in line.query:
        found = [(objects[at], at + 1) for at, flux in enumerate(fluxes) if flux > LEAST]
    else:
        one = int(line.query.rpartition("=")[2])
        found = [(one, at + 1) for at, own in enumerate(objects) if own == one]
    return ["%d,%d" % pair for pair in sorted(found)]


# ---- the program


def run(words, form):
    """The user seconds of a run by these words."""
    before = resource.getrusage(resource.RUSAGE_CHILDREN).ru_utime
    subprocess.run([words.program, *form], cwd=words.folder, stdout=subprocess.DEVNULL, check=True)
    return resource.getrusage(resource.RUSAGE_CHILDREN).ru_utime - before


def clocked(words, form):
    """The milliseconds by the clock of a run by these words."""
    began = time.perf_counter()
    run(words, form)
    return 1000 * (time.perf_counter() - began)


def loading(words):
    """Prints what a row of each table takes to be loaded; whether the sources keep the catalogue's pace."""
    forms = [["query", "sky.txt", csv, "none.sql", "0"] for csv in ("no_rows.csv", "catalogue.csv")]
    forms += [["sources", *TEXTS[:2], csv, "none.sql", "0"] for csv in ("no_sources.csv", "measured.csv")]
    nothing, objects, no_sources, sources = (min(run(words, form) for _ in range(words.times)) for form in forms)
    row, source = 1e9 * (objects - nothing) / words.rows, 1e9 * (sources - no_sources) / words.sources
    print(f"| loading, ns a row of the catalogue | {row:.0f} | | |")
    print(f"| loading, ns a source | {source:.0f} | {row:.0f} | |", flush=True)
    for workers in WORKERS:
        none, all_of_them = (min(clocked(words, form[:-1] + [str(workers)]) for _ in range(words.times)) for form in forms[2:])
        print(f"| loading the sources, {workers} workers, ms | {all_of_them - none:.0f} | | |", flush=True)
    return source <= row


def answers(told):
    """The lines of the rows of each block."""
    return [block.split("\n")[2:-2] for block in told.split("query ")[1:]]


def asking(words, workers, script, count):
    """The lines that the program writes for a script, this many, and the milliseconds by the clock from the script to the last of them.
    The script is a named pipe, which the program opens when everything is loaded."""
    form = [words.program, "sources", *TEXTS, "pipe", str(workers)]
    with subprocess.Popen(form, cwd=words.folder, stdout=subprocess.PIPE) as process:
        script_end = classes.opened(os.path.join(words.folder, "pipe"), process)
        # the script is shorter than what a pipe holds
        os.write(script_end, script.encode())
        began = time.perf_counter()
        os.close(script_end)
        pieces, lines = [], 0
        while lines < count:
            pieces.append(os.read(process.stdout.fileno(), 1 << 20))
            lines = lines + pieces[-1].count(b"\n") if pieces[-1] else count
        took = 1000 * (time.perf_counter() - began)
        return b"".join(pieces).decode(), took


def joining(words, line, rows, others):
    """Prints a query's line for each number of workers; whether it answers right and in time."""
    is_right, count = True, line.often * (len(rows) + 3)
    for workers in WORKERS:
        runs = [asking(words, workers, f"{line.query}\n" * line.often, count) for _ in range(words.times)]
        cost = min(took for _, took in runs) / line.often
        is_same = all(answers(told) == [rows] * line.often for told, _ in runs)
        beside = ", ".join(f"{name} {took:.2f}" for name, took in others[workers])
        print(f"| {line.name}, {workers} workers, ms | {cost:.2f} | {line.most} | {beside} |{'' if is_same else ' WRONG'}", flush=True)
        is_right = is_right and is_same and cost <= line.most
    return is_right


# ---- PostgreSQL


def load(server, words):
    """Loads the two tables, unless the server has them."""
    if server.has("Source"):
        return
    server.load("Object", ["objectId", "x", "y", "z", "flux", "kind"], os.path.join(words.folder, "catalogue.csv"))
    server.load("Source", ["sourceId", "objectId", "flux", "t"], os.path.join(words.folder, "measured.csv"))
    server.ask("CREATE INDEX ON Source (objectId); ANALYZE;")


def least(server, line, workers, times):
    """PostgreSQL's milliseconds for a query."""
    head = f"SET max_parallel_workers_per_gather={workers}; SET parallel_setup_cost=0; SET parallel_tuple_cost=0;\n"
    asked = f"EXPLAIN (ANALYZE,TIMING OFF) {line.query} ORDER BY o.objectId,s.sourceId;\n"
    return min(postgres.executions(server.ask(head + asked * times)))


def by_postgres(words, lines):
    """For each line and number of workers PostgreSQL's milliseconds, or nothing without it."""
    if not postgres.is_here():
        return {}
    server = postgres.Server(words.folder)
    try:
        load(server, words)
        return {(line, workers): least(server, line, workers, words.times) for line in lines for workers in WORKERS}
    finally:
        server.stop()


# ---- numpy


def by_numpy(words, lines, measured):
    """For each line numpy's milliseconds, which has no workers, or nothing without it."""
    try:
        import numpy
    except ImportError:
        print("numpy is skipped: python3 has none here")
        return {}
    ids, found = numpy.arange(1, words.rows + 1), {}
    objects, fluxes = (numpy.array(column) for column in measured[:2])
    for line in lines:
        runs = []
        for _ in range(words.times):
            began = time.monotonic()
            if "flux" in line.query:
                at = numpy.flatnonzero(fluxes > LEAST)
            else:
                at = numpy.flatnonzero(objects == int(line.query.rpartition("=")[2]))
            own = objects[at]
            near = numpy.minimum(numpy.searchsorted(ids, own), len(ids) - 1)
            at = at[ids[near] == own]
            at = at[numpy.lexsort((at, objects[at]))]
            runs.append(1000 * (time.monotonic() - began))
        if ["%d,%d" % (objects[place], place + 1) for place in at] != wanted(line, measured):
            sys.exit("numpy has another answer")
        found[line, 0] = min(runs)
    return found


def main():
    words = program_words.parser(__doc__, rows=1_000_000, sources=4_000_000, times=5).parse_args()
    words.folder = os.path.abspath(words.folder)
    os.makedirs(words.folder, exist_ok=True)
    measured, lines = columns(words.rows, words.sources), lines_of(words.rows)
    write_texts(words.folder, words.rows, measured)
    others = {"PostgreSQL": by_postgres(words, lines), "numpy": by_numpy(words, lines, measured)}
    print(f"| {words.rows} objects, {words.sources} sources | measured | at most | others, ms |\n|---|---|---|---|")
    is_right = loading(words)
    for line in lines:
        beside = [[(name, took[line, workers]) for name, took in others.items() if (line, workers) in took] for workers in WORKERS]
        is_right = joining(words, line, wanted(line, measured), dict(zip(WORKERS, beside))) and is_right
    return 0 if is_right else 1


if __name__ == "__main__":
    sys.exit(main())
