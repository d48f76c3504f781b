#!/usr/bin/env python3
"""Runs the built program again and again, each time with another of its requests for memory, or for threads, refused.

    scripts/fail_allocations.py FOLDER [--program FILE] [--workers N ..] [--session | --long] [--processes N]

The run is small: six rows, and a script with a query of every kind and one of every refusal. Each form of the command line
is run: load, explain, check, query, classes, trace, demo and sources, the last five with each number of workers (0). So are query and
classes over three scripts and the catalogue of the worked rows, all ids, the pairs of neighbours, and a cancel with a wait, trace
over the last of them, and query and classes over 300 rows of one chunk, whose columns are gathered in five parts, with a first
NULL in the second, whose pairs allocate to be sorted, and of which the first 32 are found among candidates. First the
Nth request of the run is refused, for N from 1 until a run makes fewer, and then the Nth and all after it. A run has to end so:
- with the whole right text and status 0;
- with the right text but for `out of memory` in the place of an answer that wants chunks to be scanned, and status 0;
- or with nothing written, `out of memory` on standard error, and status 9.
A journal of trace is right as `random_journals.py` has it; it may lose a query in the place of an answer.

Then no thread is started from the Nth on, for N from 1 to 20, and no request for memory is refused. Each of these runs has to end
with the whole right text: whoever runs the script does the work that no other thread does.

It prints how many runs of each form ended how, and each run that ended otherwise; the status is 0 where none did, and 1 else.
The right texts are computed here from the flat table. With --session the script also waits and cancels. Between the program
and the C library is a small library in C that refuses the requests; it is compiled with cc into a folder that goes again.

With --long the runs are of load and query alone, over 17,000 shuffled rows, and of sources, over as many shuffled sources: with
workers these tables are read in parts by several threads, which put the rows in order and store them. Which request is the Nth
depends then on how the threads run.

FILE is the built program, by default .qserv/qserv, where ./qserv leaves it. FOLDER is made where it isn't there, and gets the
texts sky, csv, script and journal, the catalogue and scripts of the worked rows, measured and joins for sources, and one, many and
asked for the chunk of 300 rows; with --long wide, long, few, long_sources and paired.
"""
import collections
import concurrent.futures
import functools
import os
import random
import subprocess
import sys
import tempfile

import compare_answers
import compare_loading
import flat_answers
import flat_children
import journals
import random_journals
import random_worlds
import session_ends
import worked_children
import worked_runs

# bench/ is on the path since compare_answers was imported
import demo_files
import program_words

# Counts the requests for memory in a given file, and refuses the given ones. It does not depend on how the program ends. It refuses
# all starts of threads but a given number of the first.
REFUSER = r"""
#define _GNU_SOURCE
#include <dlfcn.h>
#include <errno.h>
#include <pthread.h>
#include <stdatomic.h>
#include <stdlib.h>
#include <sys/mman.h>

extern void *__libc_malloc(size_t), *__libc_calloc(size_t, size_t), *__libc_realloc(void *, size_t);

typedef int started(pthread_t *, const pthread_attr_t *, void *(*)(void *), void *);

static atomic_ulong *requests, starts;
static unsigned long first, last, most;
static started *start;

static unsigned long number(const char *name) {
    const char *text = getenv(name);
    return text ? strtoul(text, NULL, 10) : 0;
}

__attribute__((constructor)) static void begin(void) {
    void *counted = mmap(NULL, sizeof *requests, PROT_READ | PROT_WRITE, MAP_SHARED, (int)number("COUNTED"), 0);
    if (counted == MAP_FAILED) abort();
    first = number("REFUSED_FROM");
    last = number("REFUSED_TO");
    most = number("STARTED");
    start = (started *)dlsym(RTLD_NEXT, "pthread_create");
    requests = counted;
}

static int is_refused(void) {
    /* what is asked for before the program begins is not its own */
    if (requests == NULL) return 0;
    unsigned long request = ++*requests;
    if (request < first || request > last) return 0;
    errno = ENOMEM;
    return 1;
}

void *malloc(size_t size) { return is_refused() ? NULL : __libc_malloc(size); }
void *calloc(size_t count, size_t size) { return is_refused() ? NULL : __libc_calloc(count, size); }
void *realloc(void *old, size_t size) { return is_refused() ? NULL : __libc_realloc(old, size); }

int pthread_create(pthread_t *thread, const pthread_attr_t *how, void *(*work)(void *), void *with) {
    return ++starts > most ? EAGAIN : start(thread, how, work, with);
}
"""
NAMES = ["objectId", "x", "y", "z", "flux", "g"]
EDGE = 268435456
ROWS = [
    [1, EDGE, 0, 0, 10, 1 << 50],
    [2, EDGE, 3, 0, None, 1],
    [3, EDGE, 0, 4, 30, -(1 << 50)],
    [4, EDGE, -3, 0, None, 1],
    [5, EDGE, 0, -1, -5, None],
    [6, 0, 0, EDGE, 60, 1 << 50],
]
SCRIPT = [
    "SELECT * FROM Object",
    "SELECT objectId,2*flux AS twice FROM Object WHERE area_cap(268435456,0,0,16) AND flux BETWEEN -9 AND 30 ORDER BY twice DESC LIMIT 2",
    "SELECT objectId FROM Object WHERE area_box(-10,10,1,-1,1,1) AND (NOT flux IS NULL OR g<>1)",
    "SELECT objectId,flux FROM Object WHERE objectId IN (2,4,99) OR flux*flux>g ORDER BY flux",
    "SELECT z FROM Object WHERE objectId IN (2,4,99) AND objectId=4",
    "SELECT COUNT(*),COUNT(flux),SUM(flux),AVG(flux),MIN(z),MAX(z) FROM Object WHERE area_band(-10,10)",
    "SELECT SUM(flux) FROM Object WHERE flux>1000",
    "SELECT g+1,flux,COUNT(*) AS n,AVG(z) FROM Object GROUP BY g,flux ORDER BY n DESC LIMIT 4",
    "SELECT a.objectId,b.objectId,a.z-b.z FROM Object a,Object b WHERE chord2(a,b)<=25 AND a.objectId<b.objectId ORDER BY b.objectId DESC",
    "SELECT * FROM Object a,Object b WHERE chord2(b,a)<10 LIMIT 3",
    "SELECT x FROM Object WHERE area_band(1,0)",
    "SELECT x FROM Object WHERE flux#3",
    "SELECT x FROM Object WHERE flux=9223372036854775808",
    "SELECT x" + ",x" * 1022 + " FROM Object LIMIT 0",
    "SELECT " + "(" * 33 + "x" + ")" * 33 + " FROM Object",
    "SELECT x FROM Object WHERE (flux IS 3 OR g=1)",
    "SELECT magnitude FROM Object",
    "SELECT flux,COUNT(*) FROM Object",
    "SELECT a.x FROM Object a,Object b",
    "SELECT x FROM Object WHERE NOT area_band(0,4)",
    "SELECT objectId*flux FROM Object",
    "SELECT x FROM Object ORDER BY n",
    "SELECT a.x FROM Object a,Object b WHERE chord2(a,b)<=26",
    "SELECT SUM(g*g) FROM Object",
]
# after the script if it is a session: a late cancel, one of a refused query, and one in time after a wait for another
SESSION = ["wait 2", "cancel 2", "cancel 12", "cancel 8", "SELECT MAX(flux) FROM Object GROUP BY g", "cancel 25", "wait 9"]
# the table and the scripts of three worked rows
FLUX = [[1, EDGE, 0, 0, 10], [2, EDGE, 3, 0, 20], [3, EDGE, 0, 4, 30], [4, EDGE, -3, 0, 40], [5, EDGE, 0, -1, 50], [6, 0, 0, EDGE, 60]]
WORKED = {
    "ids": ["SELECT objectId FROM Object"],
    "pairs": ["SELECT a.objectId, b.objectId FROM Object a, Object b WHERE chord2(a,b) <= 9 AND a.objectId < b.objectId"],
    "steps": ["SELECT objectId FROM Object", "SELECT COUNT(*) FROM Object", "SELECT MAX(flux) FROM Object", "cancel 2", "wait 1"],
}
# the answered rows of sources, and one of every refusal
JOINS = worked_children.ROWS[: -len(worked_children.REFUSED)] + worked_children.ROWS[-8:]
# a chunk of 300 rows, whose ids are in no order along their line, and what is asked of it
ONE = "overlap 16\nstripe -268435472 1 1 1\n"
MANY = [[id, EDGE, 7 * (37 * id % 307), 0, id % 5, None if id == 100 else id] for id in range(1, 301)]
ASKED = [
    "SELECT COUNT(*),COUNT(g),SUM(g),MIN(y),MAX(objectId) FROM Object",
    "SELECT objectId,g,y FROM Object WHERE objectId>=98 ORDER BY g LIMIT 4",
    "SELECT objectId,y FROM Object ORDER BY y DESC LIMIT 32",
    "SELECT flux,COUNT(g) FROM Object GROUP BY flux",
    "SELECT a.objectId,b.objectId FROM Object a,Object b WHERE chord2(a,b)<=49 AND a.objectId<b.objectId",
]
# enough rows for threads to read them, to put them in order and to store them
LONG = 17_000
FEW = [
    "SELECT COUNT(*),COUNT(flux),SUM(flux),MIN(objectId),MAX(x) FROM Object",
    "SELECT objectId,x,flux FROM Object WHERE flux>=0 ORDER BY objectId LIMIT 9",
]
KINDS = ["right text", "right but for queries out of memory", "out of memory, nothing written"]
# more threads than any of the runs starts, and a number that no request has
PAIRED = ["SELECT o.objectId,s.sourceId,s.kind FROM Object o,Source s WHERE o.objectId=s.objectId AND s.flux>950"]
THREADS, NEVER = 20, 1 << 62


class Form:
    """The words of a command line, and what finds how the queries end in a text that it may write."""

    def __init__(self, words, ends_in):
        self.words, self.ends_in = words, ends_in

    def kind(self, status, output, told):
        """How a run ended, or None where none may end so."""
        if (status, output, told) == (9, b"", b"out of memory\n"):
            return KINDS[2]
        ends = self.ends_in(output) if (status, told) == (0, b"") else None
        if not isinstance(ends, list):
            return None
        return KINDS[1] if session_ends.SPENT in ends else KINDS[0]


def written(words, parts):
    """A form that writes a text, each part of which may be one of a few."""
    return Form(words, lambda output: session_ends.ends_told(output.decode("latin-1"), parts))


def traced(words, world, lines, workers):
    """A form that writes a journal which the session of a script may leave."""
    steps = session_ends.steps_of(lines)

    @functools.cache
    def ends_in(output):
        if journals.told(output)[0]:
            return None
        journal = journals.read(output)
        if not random_journals.is_of_session(world, journal, steps, workers, may_be_spent=True):
            return None
        return [random_journals.end_in(journal, line.query) for line in journal.entries if isinstance(line, journals.Attach)]

    return Form(words, ends_in)


def sessions(world, script):
    """The texts that are asked of, each time with the world and the lines of the script."""
    worked = random_worlds.World(random_worlds.SKIES[0], NAMES[:5], FLUX)
    yield ["sky", "csv", "script"], world, script
    for name, lines in WORKED.items():
        yield ["sky", "worked", name], worked, lines
    yield ["one", "many", "asked"], random_worlds.World(ONE, NAMES, MANY), ASKED


def joined(workers):
    """The ends that the queries over objects and their sources may have."""
    # a query that is refused has no chunks to be scanned, and one whose plan is empty
    blocks = [(block, not block[-1].startswith("refused") and not block[-1].endswith(" 0 chunks")) for _, block in JOINS]
    return session_ends.chosen([("query", query) for query, _ in JOINS], blocks, workers, True)


def forms(world, script, workers):
    """The forms that are run."""
    whole = {
        ("load", "sky", "csv"): flat_answers.report(world),
        ("explain", "sky", "csv", "script"): flat_answers.explanation(world, [line for line in script if line.startswith("S")]),
        ("check", "journal"): worked_runs.OK,
    }
    found = [written(list(words), [{"told": text}]) for words, text in whole.items()]
    demo = random_worlds.World(demo_files.SKY, compare_answers.DEMO_NAMES, [list(row) for row in demo_files.rows(5, 7)])
    lines = compare_answers.queries_of(demo_files.SCRIPT)
    for number in workers:
        found.append(written(["demo", "5", "7", str(number)], session_ends.choices(demo, lines, number, True)))
        found.append(written(["sources", "sky", "worked", "measured", "joins", str(number)], joined(number)))
        for texts, over, asked in sessions(world, script):
            told = session_ends.choices(over, asked, number, True)
            found += [written([command, *texts, str(number)], told) for command in ("query", "classes")]
            if texts[2] in ("script", "steps"):
                found.append(traced(["trace", *texts, str(number)], over, asked, number))
    return found


def long_forms(world, children, workers):
    """The forms that are run over the long catalogue, and over the long source table."""
    yield written(["load", "wide", "long"], [{"told": flat_answers.report(world)}])
    blocks = [(compare_loading.Joined(query, children).block(), True) for query in PAIRED]
    for number in workers:
        yield written(["query", "wide", "long", "few", str(number)], session_ends.choices(world, FEW, number, True))
        told = session_ends.chosen([("query", query) for query in PAIRED], blocks, number, True)
        yield written(["sources", "sky", "worked", "long_sources", "paired", str(number)], told)


def long_rows(kind):
    """The rows of the long table of a kind in ascending id."""
    drawn = kind(random.Random(7))
    return [[None if value == "" else value for value in drawn.row()] for _ in range(LONG)]


def lines_of(rows, names=NAMES):
    """The lines of a table, from the last row, so that they have to be put in order."""
    names = names[: len(rows[0])]
    return [",".join(names), *(",".join("" if value is None else str(value) for value in row) for row in reversed(rows))]


def compiled(folder):
    """The library that refuses requests."""
    source, made = os.path.join(folder, "refuser.c"), os.path.join(folder, "refuser.so")
    with open(source, "w", encoding="ascii") as file:
        file.write(REFUSER)
    subprocess.run(["cc", "-O1", "-shared", "-fPIC", "-o", made, source, "-ldl"], check=True)
    return made


def run(words, folder, refuser, first, last, threads=NEVER):
    """Runs the program with the requests from one to another refused, and all starts of threads but a number of them: its status,
    what it writes, and its requests."""
    with tempfile.TemporaryFile(buffering=0) as counted:
        counted.write(bytes(8))
        file = counted.fileno()
        refused = {"LD_PRELOAD": refuser, "REFUSED_FROM": str(first), "REFUSED_TO": str(last), "COUNTED": str(file)}
        refused["STARTED"] = str(threads)
        ended = subprocess.run(
            words, cwd=folder, env={**os.environ, **refused}, capture_output=True, timeout=60, pass_fds=[file]
        )
        requests = int.from_bytes(os.pread(file, 8, 0), sys.byteorder)
    return ended.returncode, ended.stdout, ended.stderr, requests


def tried(words, form, folder, refuser, first, is_one):
    """How a run ended whose request of this number is refused, and those after it too unless it is one; and whether it made
    that many requests. The end is the exit status and the output where none may end so."""
    status, output, told, requests = run([words.program, *form.words], folder, refuser, first, first if is_one else NEVER)
    kind = form.kind(status, output, told) if requests else None
    if requests < first and kind != KINDS[0]:
        kind = None
    return kind or f"request {first}{'' if is_one else ' and on'}: status {status}, {told!r}, {output[:300]!r}", requests >= first


def with_threads(words, form, folder, refuser, threads):
    """How a run ended of which so many threads are started."""
    status, output, told, _ = run([words.program, *form.words], folder, refuser, NEVER, NEVER, threads)
    kind = form.kind(status, output, told)
    return KINDS[0] if kind == KINDS[0] else f"{threads} threads: status {status}, {told!r}, {output[:300]!r}"


def numbered(pool, words, form, folder, refuser, is_one):
    """The ends of the runs with request 1, 2 and on refused, until runs make fewer."""
    first, many = 1, 64
    while True:
        batch = [pool.submit(tried, words, form, folder, refuser, at, is_one) for at in range(first, first + many)]
        ends = [each.result() for each in batch]
        for end, was_made in ends:
            yield end
            if not was_made:
                return
        first += many


def main():
    parser = program_words.parser(__doc__, processes=os.cpu_count())
    parser.add_argument("--workers", type=int, nargs="+", default=[0])
    parser.add_argument("--session", action="store_true")
    parser.add_argument("--long", action="store_true")
    words = parser.parse_args()
    folder = os.path.abspath(words.folder)
    os.makedirs(folder, exist_ok=True)
    world, script = random_worlds.World(random_worlds.SKIES[0], NAMES, ROWS), SCRIPT + SESSION * words.session
    texts = {"sky": [random_worlds.SKIES[0].rstrip()], "csv": lines_of(ROWS), "script": script, **WORKED}
    texts |= {"one": [ONE.rstrip()], "many": lines_of(MANY), "asked": ASKED, "worked": lines_of(FLUX)}
    texts["journal"] = worked_runs.BOARD.splitlines()
    texts |= {"measured": worked_children.FIVE.splitlines(), "joins": [query for query, _ in JOINS]}
    if words.long:
        rows, sources = long_rows(compare_loading.Rows), long_rows(compare_loading.Sources)
        names = compare_loading.Sources.header.decode().rstrip().split(",")
        (header, *lines), (other, *measured) = lines_of(rows), lines_of(sources, names)
        texts |= {"wide": [compare_loading.SKY.rstrip()], "few": FEW, "long": [header, *random.Random(8).sample(lines, LONG)]}
        texts |= {"long_sources": [other, *random.Random(8).sample(measured, LONG)], "paired": PAIRED}
        small = random_worlds.World(random_worlds.SKIES[0], NAMES[:5], FLUX)
        children = flat_children.Children(small, names, sources)
        asked = long_forms(random_worlds.World(compare_loading.SKY, NAMES, rows), children, words.workers)
    else:
        asked = forms(world, script, words.workers)
    compare_answers.write(folder, {name: "\n".join(lines) + "\n" for name, lines in texts.items()})
    wrong = 0
    with tempfile.TemporaryDirectory() as made, concurrent.futures.ThreadPoolExecutor(words.processes) as pool:
        refuser = compiled(made)
        for form in asked:
            ends = [end for is_one in (True, False) for end in numbered(pool, words, form, folder, refuser, is_one)]
            ends += pool.map(functools.partial(with_threads, words, form, folder, refuser), range(THREADS))
            counts = collections.Counter(ends)
            others = [end for end in counts if end not in KINDS]
            told = ", ".join(f"{counts[kind]} {kind}" for kind in KINDS if counts[kind])
            print(f"{' '.join(form.words)}: {len(ends)} runs: {told}", *others[:5], sep="\n  ", flush=True)
            wrong += len(others)
    return 1 if wrong else 0


if __name__ == "__main__":
    sys.exit(main())
