#!/usr/bin/env python3
"""Measures queries beside PostgreSQL, SQLite, numpy and loops in C, in one run, and prints one table by ratio.

    bench/peers.py FOLDER [--program FILE] [--rows N] [--clusters N] [--times N] [--fifo]

FILE is the built program, by default .qserv/qserv, where ./qserv leaves it; it is run with the words that ./qserv gives the C library.
Writes into FOLDER, once, the demo's catalogue of N rows (1,000,000), and for the dense pairs N clusters (9,500) of 20 rows each that are
all near each other. Each line is measured as the least of N times (3), all in turns, in milliseconds by the clock:

- the program with no workers and with 3, over the demo's sky of 34 chunks and over one of 256. All is loaded when the script comes;
  the time is from then to the last line of the transcript, text and all. A cheap query is in its script several times, each waits for
  the one before it, and the time is that of one. Only the first line is a whole run, with its loading.
- numpy by the calls of peers_numpy.py, with columns in memory; only the line of text writes text. In the second table also until
  each answer is one text with its rows in the program's order, and what the program takes of that with no workers.
- PostgreSQL, if initdb, pg_ctl and psql are on the PATH, by the execution time that it prints, with its default number of parallel
  workers and with none. The first line is a table that is made and loaded, by the clock of psql; the line of text is a COPY. Planning
  and the text of all other lines are left out.
- SQLite by python3's module, with the table in memory. It joins by nested loops only, and is not asked for pairs.
- C, if there is gcc: the loops of peers.c, with columns in memory, and those of sweep.c for pairs, which counts them, by processor time.

What is missing is skipped with a line, and so is ClickHouse, by which no line is measured.

There is no index but that of the ids. PostgreSQL has the pairs by a join of two tables that are made before: of each row with its cell
of a grid, and of each row with the cells that it is near, as the program has overlaps. numpy sorts the rows by such cells each time.
Each answer is compared with one from the flat list; of the pairs, how many they are. The status is 1 if an answer differs. With --fifo
what has one thread runs by the scheduler's class FIFO, as by `chrt -f 1`, which has to be allowed. It keeps most of other work off its
processor. Of a loop in C each time is the least of three.
"""
import itertools
import math
import os
import shutil
import subprocess
import sys
import time

import classes
import demo_files
import pairs
import peers_lines
import peers_sql
import postgres
import program_words
import run

SKIES = {"34 chunks": "sky.txt", "256 chunks": "many.txt"}
PEERS = ["numpy", "SQLite", "PostgreSQL, no workers", "PostgreSQL"]
TO_TEXT = "numpy to its text"


def fifo(words, is_alone):
    """Puts this process, and what it starts from then on, into the scheduler's class for what has one thread, or out of it."""
    if words.fifo:
        os.sched_setscheduler(0, os.SCHED_FIFO if is_alone else os.SCHED_OTHER, os.sched_param(1 if is_alone else 0))


# ---- the program


def launched(workers):
    """The environment that ./qserv gives the program for this number of workers."""
    pad, mapped = (1 << 20, 1 << 19) if workers else (1 << 26, 1 << 25)
    if 1 <= workers <= 4:
        pad, mapped = 1 << 23, 1 << 22
    words = {"MALLOC_TOP_PAD_": pad, "MALLOC_TRIM_THRESHOLD_": 2000000000, "MALLOC_MMAP_THRESHOLD_": mapped}
    if 1 <= workers <= 4:
        words["MALLOC_ARENA_MAX"] = 1
    return {**os.environ, **{name: str(value) for name, value in words.items()}, "GLIBC_TUNABLES": "glibc.malloc.hugetlb=1"}


def asked(form, folder, env, script):
    """The transcript for a script that comes when all is loaded, and the milliseconds from then to the transcript's end."""
    with subprocess.Popen([*form[:4], "pipe", form[4]], cwd=folder, env=env, stdout=subprocess.PIPE) as process:
        script_end = classes.opened(os.path.join(folder, "pipe"), process)
        # the script is shorter than what a pipe holds
        os.write(script_end, script.encode())
        began = ended = time.perf_counter()
        os.close(script_end)
        pieces = []
        while piece := os.read(process.stdout.fileno(), 1 << 20):
            ended = time.perf_counter()
            pieces.append(piece)
    return b"".join(pieces).decode(), 1000 * (ended - began)


def whole(form, folder, env, query):
    """The transcript of a run for one query, and the milliseconds of the whole run."""
    demo_files.write(folder, "peers.sql", query + "\n")
    form = [*form[:4], "peers.sql", form[4]]
    ended, took = peers_lines.clocked(lambda: subprocess.run(form, cwd=folder, env=env, capture_output=True, check=True))
    return ended.stdout.decode(), took


def by_program(words, line, sky, workers):
    """The answers, and the milliseconds of the line's queries once."""
    folder, env = os.path.join(words.folder, line.folder), launched(workers)
    form = [words.program, "query", sky, "catalogue.csv", str(workers)]
    if line.word == "csv":
        told, took = whole(form, folder, env, line.queries[0])
    else:
        steps = list(line.queries)
        if line.often > 1:
            steps = [step for n in range(1, line.often + 1) for step in (line.queries[0], f"wait {n}")]
        told, took = asked(form, folder, env, "\n".join(steps) + "\n")
    answers = [block.split("\n")[2:-2] for block in told.split("query ")[1:]]
    once = answers[: len(line.queries)]
    return once if answers == once * line.often else answers, took / line.often


# ---- C


def of_c(words):
    """What measures by C, whose two programs are compiled into the folder, the loops for the instructions of x86-64-v3."""
    if not shutil.which("gcc"):
        print("C is skipped: there is no gcc here")
        return {}
    for made, source, how in (("loops", "peers.c", ["-O3", "-march=x86-64-v3"]), ("sweep", "sweep.c", ["-O2"])):
        source = os.path.join(run.HERE, source)
        subprocess.run(["gcc", *how, "-o", os.path.join(words.folder, made), source], check=True)
    return {"C": (True, lambda line: in_c(words, line))}


def in_c(words, line):
    """The answers by C, or how many pairs; and the milliseconds."""
    folder = os.path.join(words.folder, line.folder)
    if line.word == "pairs":
        form = [os.path.join(words.folder, "sweep"), "sky.txt", "catalogue.csv", str(pairs.LIMIT), "3"]
    else:
        form = [os.path.join(words.folder, "loops"), "catalogue.csv", line.word, "3"]
    told = subprocess.run(form, cwd=folder, capture_output=True, text=True, check=True).stdout
    if line.word == "pairs":
        return [range(int(told.split()[0]))], sum(map(float, told.split()[1:]))
    took, *blocks = told.split("query\n")
    return [block.splitlines() for block in blocks], float(took)


# ---- all in turns


def written(words):
    """Writes the catalogues, the skies and the pipes; the rows of both catalogues."""
    writes = {"object": lambda to: demo_files.write_all(words.rows, 1, to), "dense": lambda to: pairs.write_clusters(words.clusters, to)}
    for name, write in writes.items():
        folder = os.path.join(words.folder, name)
        if not os.path.exists(os.path.join(folder, "catalogue.csv")):
            write(folder)
        demo_files.write(folder, SKIES["256 chunks"], run.sky_text(256))
        if not os.path.exists(os.path.join(folder, "pipe")):
            os.mkfifo(os.path.join(folder, "pipe"))
    return list(demo_files.rows(words.rows, 1)), pairs.clustered(words.clusters)


def of_python(words, rows):
    """What measures by SQLite, and by numpy if python3 has it."""
    found = {"SQLite": (True, peers_sql.Sqlite(words, rows).run)}
    try:
        import peers_numpy

        columns = peers_numpy.Numpy(words)
        found |= {"numpy": (True, columns.run), TO_TEXT: (True, columns.run_to_text)}
    except ImportError:
        print("numpy is skipped: python3 has none here")
    return found


def of_program(words):
    """What measures by the program, for each sky and number of workers."""
    return {
        (name, workers): (not workers, lambda line, sky=sky, workers=workers: by_program(words, line, sky, workers))
        for name, sky in SKIES.items()
        for workers in (0, 3)
    }


def checked(line, who, answers, want):
    """Ends the script if the answers are not the right ones."""
    if not peers_lines.is_right(line, answers, want):
        sys.exit(f"{line.name}: another answer by {who}")


def once(words, line, who, contender, want):
    """The milliseconds of a contender for a line, if it has that line; its answers are compared if they are there."""
    is_alone, call = contender
    fifo(words, is_alone)
    answers, took = call(line) or (None, None)
    fifo(words, False)
    if answers is not None:
        checked(line, who, answers, want[line])
    return took


def measured(words, contenders, want):
    """The least milliseconds of each contender for each line, by the line and the contender's name."""
    took = {}
    for _ in range(words.times):
        for line, who in itertools.product(peers_lines.LINES, contenders):
            runs = took.setdefault((line, who), [])
            runs.append(once(words, line, who, contenders[who], want))
    return {one: min(runs) for one, runs in took.items() if runs[0] is not None}


def figure(value):
    return f"{value:.3f}" if value < 1 else f"{value:.2f}"


def best(took, line, peers):
    """The name and milliseconds of the peer that takes least."""
    return min(((who, took[line, who]) for who in peers if (line, who) in took), key=lambda one: one[1], default=("none", math.inf))


def table(took):
    """The rows of the table, the greatest ratio with no workers first."""
    found = []
    for line in peers_lines.LINES:
        for sky in SKIES:
            alone, three = took[line, (sky, 0)], took[line, (sky, 3)]
            (one, its), (other, others) = best(took, line, PEERS[:3]), best(took, line, PEERS)
            cells = [line.name, sky.split()[0], figure(alone), f"{one} {figure(its)}", figure(alone / its)]
            cells += [figure(three), f"{other} {figure(others)}", figure(three / others)]
            cells += [figure(took[line, "C"]), figure(alone / took[line, "C"])] if (line, "C") in took else ["-", "-"]
            found.append((alone / its, cells))
    return [cells for _, cells in sorted(found, key=lambda one: -one[0])]


def of_peers(took):
    """For each line what each peer takes, and what the program takes of numpy's time to the same text, for each sky."""
    for line in peers_lines.LINES:
        cells = [figure(took[line, who]) if (line, who) in took else "-" for who in [*PEERS, TO_TEXT]]
        to_text = took.get((line, TO_TEXT))
        yield [line.name, *cells] + [figure(took[line, (sky, 0)] / to_text) if to_text else "-" for sky in SKIES]


def show(head, rows):
    print("\n".join(["| " + " | ".join(cells) + " |" for cells in [head, ["---"] * len(head), *rows]]), flush=True)


def against(words, contenders, want):
    """The figures with PostgreSQL among the contenders, if it is here."""
    if not postgres.is_here():
        return measured(words, contenders, want)
    server = postgres.Server(words.folder)
    try:
        peers_sql.fill(server, words)
        for who, is_alone in zip(PEERS[2:], (True, False)):
            peer = peers_sql.Postgres(words, server, is_alone)
            for line in peers_lines.LINES:
                checked(line, who, peer.answers(line), want[line])
            contenders[who] = (is_alone, peer.run)
        return measured(words, contenders, want)
    finally:
        server.stop()


def main():
    parser = program_words.parser(__doc__, rows=1_000_000, clusters=9_500, times=3)
    parser.add_argument("--fifo", action="store_true", help="what has one thread runs as by chrt -f 1")
    words = parser.parse_args()
    words.folder = os.path.abspath(words.folder)
    os.makedirs(words.folder, exist_ok=True)
    rows, dense = written(words)
    want = peers_lines.wanted(rows, dense)
    contenders = {**of_program(words), **of_python(words, rows), **of_c(words)}
    # millions of rows would be walked by the collector of python3 while others are measured
    del rows, dense
    print("ClickHouse is skipped: no line is measured by it")
    took = against(words, contenders, want)
    head = ["line", "chunks", "no workers", "best peer on one thread", "ratio", "3 workers", "best peer", "ratio", "C", "times C"]
    show(head, table(took))
    print()
    show(["line", *PEERS, TO_TEXT, *(f"the program over {sky}, times that" for sky in SKIES)], of_peers(took))
    return 0


if __name__ == "__main__":
    sys.exit(main())
