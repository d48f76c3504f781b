#!/usr/bin/env python3
"""Compares what the built program says of random journals of the shared scan with their definition.

    scripts/random_journals.py check [--program FILE] [--journals N] [--seed SEED]
    scripts/random_journals.py trace [--program FILE] [--sessions N] [--seed SEED] [--workers N ..]

`check` draws N journals (2,000) in which each entry may follow those before it, and changes one thing in a copy of each: a number,
a word, a line, the order of two lines, or a byte. It runs the program's `check` on both, and prints each journal of which the
program says something else than `journals.py`. `trace` draws N sessions (2,000) as `random_sessions.py` does, runs the program's
`trace` with each number of workers (0 4), and checks all that it writes both ways: it has to be the text of a right journal. The
journal has to be one that the session may have, with the chunks and the ends that follow from the flat table and the script.

FILE is the built program, by default .qserv/qserv, where ./qserv leaves it. The texts are written to a temporary folder. The
status is 0 if nothing differs, and otherwise 1.
"""
import argparse
import collections
import os
import random
import re
import subprocess
import sys
import tempfile

import compare_answers
import flat_answers
import random_sessions
import session_ends
from sql_trees import Refused
from journals import Attach, Cancel, Close, Collect, Deliver, Journal, Past, Take, QUERY_MOST, RING_MOST, RUNNING_MOST, read, spelt, told

PROGRAM = os.path.join(os.path.dirname(os.path.abspath(__file__)), "..", ".qserv", "qserv")
SECONDS = 60


# ---- drawing


def attach_drawn(draw, past):
    fresh = [q for q in range(1, QUERY_MOST + 1) if q not in past.wanted]
    if past.closed or not fresh or len(past.running()) >= RUNNING_MOST:
        return None
    chunks = sorted(draw.sample(range(past.ring), draw.randrange(min(past.ring, 6) + 1)))
    return Attach(0, fresh[0] if draw.random() < 0.7 else draw.choice(fresh), chunks)


def take_drawn(draw, past):
    chunk = past.next_chunk()
    if chunk is None:
        return None
    return Take(draw.randrange(4), len(past.takes), chunk, past.takers(chunk))


def deliver_drawn(draw, past):
    flying = [take for take in past.takes if take.ticket not in past.delivered]
    if not flying:
        return None
    take = draw.choice(flying)
    gone = [q for q in take.queries if past.is_running(q) and draw.random() < 0.5] if draw.random() < 0.1 else []
    return Deliver(take.seat, take.ticket, gone)


def named_drawn(draw, kind, of):
    return kind(0, draw.choice(of)) if of else None


def entry_drawn(draw, past):
    """An entry that may follow, or None."""
    pick = draw.random()
    if pick < 0.15:
        return attach_drawn(draw, past)
    if pick < 0.55:
        return take_drawn(draw, past)
    if pick < 0.85:
        return deliver_drawn(draw, past)
    if pick < 0.89:
        return named_drawn(draw, Cancel, past.running())
    if pick < 0.99:
        ended = [q for q in past.wanted if not past.is_running(q) and q not in past.collected]
        return named_drawn(draw, Collect, ended)
    return None if past.closed else Close(0)


def journal_drawn(draw):
    """A right journal of up to 89 entries; one in 50 attaches as many queries as run at once before all else."""
    journal = Journal(draw.choice([0, 1, 2, 3, 8, 8, 8, 20, RING_MOST]), [])
    if draw.random() < 0.02 and journal.ring:
        journal.entries.extend(Attach(0, q, [q % journal.ring]) for q in range(1, RUNNING_MOST + 1))
    for _ in range(draw.randrange(90)):
        line = entry_drawn(draw, Past(journal.ring, journal.entries))
        if line is not None:
            journal.entries.append(line)
    return journal


def number_changed(draw, text):
    at = draw.choice(list(re.finditer(rb"[0-9]+", text)))
    value = int(at[0])
    near = [value + 1, max(value - 1, 0), draw.randrange(10)]
    new = draw.choice(3 * near + [0, 255, 256, 16384, 16385, 4294967295, 4294967296])
    return text[: at.start()] + str(new).encode() + text[at.end() :]


def word_changed(draw, text):
    at = draw.choice(list(re.finditer(rb"[a-z]+", text)))
    words = [b"attach", b"take", b"deliver", b"cancel", b"collect", b"close", b"lost", b"ring", b"Take", b""]
    return text[: at.start()] + draw.choice(words) + text[at.end() :]


def lines_changed(draw, text):
    """A line is left out, written twice or moved, or one more is there."""
    lines = text.split(b"\n")[:-1]
    at, to = (draw.randrange(draw.random() < 0.95 and len(lines) > 1, len(lines)) for _ in range(2))
    pick = draw.randrange(4)
    if pick == 0:
        del lines[at]
    elif pick == 1:
        lines.insert(to, lines[at])
    elif pick == 2:
        lines[at], lines[to] = lines[to], lines[at]
    else:
        lines.insert(to, draw.choice([b"0 close", b"0 take 0 0 1", b"0 cancel 1", b"0 collect 1", b"0 attach 9", b"", b"# none"]))
    return b"".join(line + b"\n" for line in lines)


def part_changed(draw, text):
    """A number of a line is left out, or one more is there."""
    lines = text.split(b"\n")
    at = draw.randrange(len(lines) - 1)
    parts = lines[at].split(b" ")
    if draw.random() < 0.5:
        del parts[draw.randrange(len(parts))]
    else:
        parts.insert(draw.randrange(len(parts) + 1), str(draw.randrange(12)).encode())
    lines[at] = b" ".join(parts)
    return b"\n".join(lines)


def byte_changed(draw, text):
    """A byte is left out, put in or replaced, or the text is cut."""
    at = draw.randrange(len(text))
    byte = draw.choice([b" ", b"\n", b"\r", b"\r\n", b"\t", b"0", b"9", b"-", b"+", b"\0", b"\xff"])
    return draw.choice([text[:at] + text[at + 1 :], text[:at] + byte + text[at:], text[:at] + byte + text[at + 1 :], text[:at]])


def changed(draw, text):
    """A text with one thing changed."""
    changes = [number_changed, lines_changed, part_changed, word_changed, byte_changed]
    return draw.choices(changes, [6, 6, 2, 1, 1])[0](draw, text)


# ---- runs


def said(program, folder, text):
    """What the program says of a journal's text."""
    with open(os.path.join(folder, "journal"), "wb") as file:
        file.write(text)
    found = subprocess.run([program, "check", "journal"], cwd=folder, capture_output=True, timeout=SECONDS)
    return found.returncode, found.stdout, found.stderr


def differs(program, folder, name, text, want):
    """Whether the program says something else of a journal's text than is wanted; prints both."""
    found = said(program, folder, text)
    if want != found:
        print(f"{name}: wants {want}, not {found}: {text.decode('latin-1')!r}")
    return want != found


def compare(words, folder):
    wrong, right, counts = 0, 0, collections.Counter()
    for at in range(words.journals):
        draw = random.Random(f"{words.seed} {at}")
        text = spelt(journal_drawn(draw))
        other = changed(draw, text)
        want, wanted = told(text), told(other)
        right += want[0] == 0
        counts[wanted[2].rpartition(b": ")[2].strip()] += 1
        wrong += differs(words.program, folder, f"journal {at}", text, want)
        wrong += differs(words.program, folder, f"changed journal {at}", other, wanted)
    print(f"{right} of {words.journals} drawn journals are right")
    print(f"of the changed ones {counts[b'']} are right, {counts[b'not a step']} not a step, {counts[b'syntax']} out of form")
    print(f"{wrong} differ")
    return wrong or right < words.journals


def chunks_of(line, world):
    """The chunks that a query needs, ascending, or None if it is refused before it is run."""
    try:
        bound = flat_answers.Bound(line, world)
        bound.check_radius()
    except Refused:
        return None
    return bound.plan()


def end_in(journal, query):
    """How a query ends by the entries of a right journal."""
    if any(isinstance(line, Cancel) and line.query == query for line in journal.entries):
        return session_ends.CANCELLED
    if any(isinstance(line, Deliver) and query in line.lost for line in journal.entries):
        return session_ends.SPENT
    return "told"


def is_obeyed(journal, steps):
    """Whether no query is attached while one runs that an earlier line waits for or cancels."""
    places = [place for place, (word, _) in enumerate(steps) if word == "query"]
    for at, line in enumerate(journal.entries):
        if isinstance(line, Attach):
            past = Past(journal.ring, journal.entries[:at])
            if any(word != "query" and past.is_running(query) for word, query in steps[: places[line.query - 1]]):
                return False
    return True


def is_of_session(world, journal, steps, workers, may_be_spent=False):
    """Whether a right journal is that of a session with these steps: its ring is the sky's chunks; the queries that are not refused
    before they run are attached in their order, each with its chunks, and collected once; each ends as it may; each task is
    delivered; the lines that wait and cancel are obeyed; it is closed once."""
    plans = [chunks_of(text, world) for word, text in steps if word == "query"]
    planned = [(at, chunks) for at, chunks in enumerate(plans, 1) if chunks is not None]
    ends = session_ends.chosen(steps, [([], bool(chunks)) for chunks in plans], workers, may_be_spent)
    of = collections.Counter(type(line) for line in journal.entries)
    return (
        journal.ring == len(world.chunks)
        and [(line.query, line.chunks) for line in journal.entries if isinstance(line, Attach)] == planned
        and sorted(line.query for line in journal.entries if isinstance(line, Collect)) == [at for at, _ in planned]
        and all(end_in(journal, at) in ends[at - 1] for at, _ in planned)
        and of[Take] == of[Deliver]
        and of[Close] == 1
        and is_obeyed(journal, steps)
    )


def traced(words, folder, world, script, workers):
    """What is wrong with the trace of a session, whose texts are in the folder, or None."""
    run = [words.program, "trace", *random_sessions.TEXTS, str(workers)]
    found = subprocess.run(run, cwd=folder, capture_output=True, timeout=SECONDS)
    if found.returncode or found.stderr:
        return f"status {found.returncode}, {found.stderr}"
    text, want = found.stdout, told(found.stdout)
    if want[0] or said(words.program, folder, text) != want:
        return f"the journal {text!r}: {want}"
    steps = session_ends.steps_of(compare_answers.queries_of(script))
    return None if is_of_session(world, read(text), steps, workers) else f"the journal is of another session: {text!r}"


def traces(words, folder):
    wrong = 0
    for at in range(words.sessions):
        draw = random.Random(f"{words.seed} {at}")
        world = random_sessions.world_of(draw)
        texts = {"sky": world.sky.text, "csv": world.catalogue(draw), "script": random_sessions.script_of(draw, world)}
        compare_answers.write(folder, texts)
        for workers in words.workers:
            what = traced(words, folder, world, texts["script"], workers)
            if what:
                wrong += 1
                print(f"session {at}, {workers} workers: {what}; {texts}")
    print(f"{words.sessions} sessions, with {words.workers} workers: {wrong} differ")
    return wrong


def words_of():
    parser = argparse.ArgumentParser(description=__doc__, formatter_class=argparse.RawDescriptionHelpFormatter)
    commands = parser.add_subparsers(dest="command", required=True)
    for name, what in [("check", "--journals"), ("trace", "--sessions")]:
        command = commands.add_parser(name)
        command.add_argument("--program", default=PROGRAM, type=os.path.abspath)
        command.add_argument(what, default=2000, type=int)
        command.add_argument("--seed", default=1, type=int)
        if name == "trace":
            command.add_argument("--workers", default=[0, 4], type=int, nargs="+")
    return parser.parse_args()


def main():
    words = words_of()
    if not os.access(words.program, os.X_OK):
        print(f"there is no program {words.program}")
        return 1
    with tempfile.TemporaryDirectory() as folder:
        return 1 if (compare if words.command == "check" else traces)(words, folder) else 0


if __name__ == "__main__":
    sys.exit(main())
