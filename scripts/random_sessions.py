#!/usr/bin/env python3
"""Compares what the built program writes for random sessions, with each number of workers, with what it may write.

    scripts/random_sessions.py FOLDER [--program FILE] [--sessions N] [--seed SEED] [--workers N ..] [--processes N]
                               [--commands WORD ..]

A session is a script of queries with lines that wait and lines that cancel among them, over a small sky and
catalogue: some name a query that is refused, or has ended, or was cancelled before. One in 200 has more queries than
run at once. One world in four has 256 chunks, so that `classes` scans some queries on the board of long ones. Each of N
sessions (1,000) is run by each command (query classes) with each number of workers (0 1 2 4 16). What may be written is
the same for each command. It is computed from the flat table and the script's lines alone (`session_ends.py`): one text
for each query, or, where a line cancels it with no wait for it between, two; with no workers a prompt cancel in a script
of at most 64 queries leaves `cancelled` alone. So with more workers, and by the other command, the bytes are those of no
workers wherever no cancel races. The same seed draws the same sessions, whatever the number of processes (as many as
there are processors). Before them is a session whose ends are written here by hand.

FILE is the built program, by default .qserv/qserv, where ./qserv leaves it. FOLDER is made where it isn't there; each
process writes into a folder of its own there, and a session that differs stays, as sky, csv and script, in FOLDER itself.
Runs of more than 60 seconds count as differing. The status is 0 where none differs, and 1 else.
"""
import collections
import functools
import multiprocessing
import os
import random
import subprocess
import sys

import compare_answers
import random_worlds
import session_ends
from sql_trees import IDS

# bench/ is on the path since compare_answers was imported
import program_words

# how many sessions a world serves, which is drawn for them alone
OF_A_WORLD = 10
SECONDS = 60
TEXTS = ["sky", "csv", "script"]
# the texts of a session in the order of the words; a world of a number and its texts but the script; who writes the queries; a query's
# block and whether it has chunks to be scanned; and what else is compared of a world, if anything is
Kind = collections.namedtuple("Kind", "texts world asker asked further")
MANY_CHUNKS = "overlap 1000\n" + "".join(f"stripe {low} 64 2 2\n" for low in (-268435472, -1000000, 0, 1000000))


# ---- drawing


def world_of(draw):
    """A small sky and at most twelve rows, mostly near each other and beside borders."""
    ids = {draw.choice([draw.randrange(20), draw.randrange(20), IDS]) for _ in range(draw.randrange(13))}
    return random_worlds.made(draw, draw.choice(random_worlds.SKIES), draw.randrange(3), sorted(ids))


def wide_world_of(draw):
    """40 to 59 rows, near each other and over 256 chunks: some queries have more than the 16 chunks of a short one."""
    return random_worlds.made(draw, MANY_CHUNKS, draw.randrange(3), sorted(draw.sample(range(99), draw.randrange(40, 60))))


def query_line(draw, asker):
    """A query's line: mostly one that binds, and at times a misspelt step, which is refused as a query."""
    pick = draw.random()
    if pick < 0.03:
        return draw.choice(["cancel two", "wait  1", "Cancel 1", "wait 1 ", "cancel 1234567890"])
    words = asker.short() if pick < 0.2 else asker.query()
    return asker.text(asker.changed(words) if pick > 0.93 else words)


def step_lines(draw, asker, count):
    """So many queries, with steps among them that name one before."""
    queries = 0
    while queries < count:
        line = query_line(draw, asker)
        # blanks of a query, or a first byte that was put there, may make a line a note
        if len(line) <= compare_answers.LONGEST and line.strip(" \t\r") and not line.startswith("#"):
            queries += 1
            yield line
        while draw.random() < 0.45:
            named = queries if draw.random() < 0.6 else draw.randrange(queries + 1)
            if named:
                zeros = "0" * draw.randrange(3) if draw.random() < 0.1 else ""
                yield f"{draw.choice(['cancel', 'cancel', 'wait'])} {zeros}{named}"


def script_of(draw, world, make=random_worlds.Asker):
    """The text of a session."""
    asker = make(draw, world)
    count = draw.randrange(60, 90) if draw.random() < 0.005 else draw.randrange(1, 8)
    text = ""
    for line in step_lines(draw, asker, count):
        text += draw.choice(["# a note\n", "\n", " \t\n"]) if draw.random() < 0.05 else ""
        text += line + ("\r\n" if draw.random() < 0.05 else "\n")
    return text


# ---- running


def told(program, folder, run):
    """What the program writes by the words of a run for the texts in a folder, or why that is of no use."""
    try:
        ended = subprocess.run([program, *run], cwd=folder, capture_output=True, timeout=SECONDS)
    except subprocess.TimeoutExpired:
        return None, f"did not end within {SECONDS} seconds"
    if ended.returncode or ended.stderr:
        return None, f"status {ended.returncode}, {ended.stderr.decode('latin-1').strip()}"
    return ended.stdout.decode("latin-1"), None


def judged(program, folder, run, found):
    """How the queries end by the words of a run, and what is wrong with that, if anything is."""
    text, why = told(program, folder, run)
    if why:
        return [], why
    ended = session_ends.ends_told(text, found)
    if isinstance(ended, list):
        return ended, None
    if ended == 0:
        return [], "something stands behind the last query"
    wanted = "\n  or\n".join(found[ended - 1].values())
    return [], f"query {ended} is not\n{wanted}in\n{text}"


def counted(counts, run, found, ended):
    """Counts how queries ended that may end in more than one way, or that some line cancels in time."""
    for own, end in zip(found, ended):
        kind = "fixed" if list(own) == ["told"] else "cancelled alone" if len(own) == 1 else f"either, {end}"
        counts[run, kind] += 1


def runs_of(words):
    """Each command with each number of workers."""
    return [(command, number) for command in words.commands for number in words.workers]


def run_session(words, kind, folder, world, script, counts):
    """Runs a session by each command with each number of workers; says what differs, if anything does."""
    compare_answers.write(folder, {"script": script})
    steps = session_ends.steps_of(compare_answers.queries_of(script))
    blocks = [kind.asked(text, world, counts) for word, text in steps if word == "query"]
    for command, number in runs_of(words):
        found = session_ends.chosen(steps, blocks, number)
        ended, why = judged(words.program, folder, [command, *kind.texts, str(number)], found)
        if why:
            return f"{command}, {number} workers: {why}"
        counted(counts, (command, number), found, ended)
    return None


def run_world(number, words, kind):
    """Runs the sessions of a world, of which each is drawn from the seed and its own number."""
    folder = os.path.join(words.folder, multiprocessing.current_process().name)
    os.makedirs(folder, exist_ok=True)
    draw, counts = random.Random(f"{words.seed} {number}"), collections.Counter()
    world, texts = kind.world(draw, number)
    compare_answers.write(folder, texts)
    for at in range(number * OF_A_WORLD, min((number + 1) * OF_A_WORLD, words.sessions)):
        script = script_of(draw, world, kind.asker)
        why = run_session(words, kind, folder, world, script, counts)
        if why:
            return counts, {**texts, "script": script}, f"session {at + 1}, {why}"
    wrong = kind.further and kind.further(words, folder, draw, world, texts, counts)
    return (counts, *wrong) if wrong else (counts, None, None)


def world_and_texts(draw, number):
    world = world_of(draw) if number % 4 else wide_world_of(draw)
    return world, {"sky": world.sky.text, "csv": world.catalogue(draw)}


def asked(line, world, counts):
    return session_ends.asked(line, world)


OBJECTS = Kind(TEXTS, world_and_texts, random_worlds.Asker, asked, None)


def by_hand(words):
    """A session whose ends are known without any of this: the second of three queries is cancelled at once."""
    folder = os.path.join(compare_answers.HERE, "..", "crates", "qserv_cli", "data")
    count, most = "query 2\nCOUNT(*)\n6\n1 rows, 3 chunks\n", "query 3\nMAX(flux)\n60\n1 rows, 3 chunks\n"
    first = "query 1\nobjectId\n1\n2\n3\n4\n5\n6\n6 rows, 3 chunks\n"
    script = "SELECT objectId FROM Object\nSELECT COUNT(*) FROM Object\nSELECT MAX(flux) FROM Object\ncancel 2\nwait 1\n"
    os.makedirs(words.folder, exist_ok=True)
    for name in ("sky", "csv"):
        with open(os.path.join(folder, name), encoding="ascii") as file:
            compare_answers.write(words.folder, {name: file.read()})
    compare_answers.write(words.folder, {"script": script})
    for command, workers in runs_of(words):
        text, why = told(words.program, words.folder, [command, *TEXTS, str(workers)])
        allowed = [first + "query 2\ncancelled\n" + most] + [first + count + most] * (workers > 0)
        if text not in allowed:
            return f"the session by hand, {command}, {workers} workers: {why or text}"
    return None


def parsed(doc, commands):
    """The words of a script with this text, which runs these commands."""
    parser = program_words.parser(doc, sessions=1000, seed=1, processes=os.cpu_count())
    parser.add_argument("--workers", type=int, nargs="+", default=[0, 1, 2, 4, 16])
    parser.add_argument("--commands", nargs="+", default=commands, metavar="WORD")
    words = parser.parse_args()
    words.folder = os.path.abspath(words.folder)
    return words


def run_all(words, kind, wrong):
    """Runs all sessions unless something is wrong already, and prints how they ended; the status of the script."""
    counts = collections.Counter()
    worlds = range(0 if wrong else -(-words.sessions // OF_A_WORLD))
    with multiprocessing.Pool(words.processes) as pool:
        for more, texts, why in pool.imap_unordered(functools.partial(run_world, words=words, kind=kind), worlds):
            counts += more
            if why:
                compare_answers.write(words.folder, texts)
                wrong = why
                break
    if wrong:
        print(f"{wrong}\nits texts are in {words.folder}")
        return 1
    print(f"{words.sessions} sessions, by {' and '.join(words.commands)}, each with {' '.join(map(str, words.workers))} workers: none differs")
    for own in [*runs_of(words), None]:
        kinds = sorted((kind, count) for (run, kind), count in counts.items() if run == own)
        if kinds:
            print((f"{own[0]}, {own[1]} workers: " if own else "") + ", ".join(f"{count} {kind}" for kind, count in kinds))
    return 0


def main():
    words = parsed(__doc__, ["query", "classes"])
    return run_all(words, OBJECTS, by_hand(words))


if __name__ == "__main__":
    sys.exit(main())
