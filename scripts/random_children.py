#!/usr/bin/env python3
"""Compares what the built program writes for random scripts over objects and their sources with a plain join of two lists.

    scripts/random_children.py FOLDER [--program FILE] [--sessions N] [--seed SEED] [--workers N ..] [--processes N]
                               [--commands WORD ..]

A session is a script of child queries with lines that wait and lines that cancel among them, as `random_sessions.py` draws them, over
a small sky, catalogue and source table. A table may be empty. Sources have NULLs, and objects that no row is; there are many of one
object, one of each of many, or all kinds. Columns of both tables may have one name. The text of the sources has line ends, quotes, empty
lines and a byte order mark of all kinds. Most queries bind; others have one of the faults of a child query, or several at once.

Each of N sessions (1,000) is run by each command (sources) with each number of workers (0 1 2 4 16). What may be written is computed
from the two lists and the script's lines alone (`flat_children.py`, `session_ends.py`). If no value of an answered query can be wider
than 64 bits, SQLite is asked too (`sqlite_answers.py`); a difference between the two ends this script.

Then the source table of each world is changed at one place, eight times. `table_texts.py` says which fault is the first one, or which
sources the text still has, and the program has to write the same status, line and answers.

The same seed draws the same sessions. FILE is the built program, by default .qserv/qserv, where ./qserv leaves it. FOLDER is made where
it isn't there; each process writes into a folder of its own there, and a session that differs stays, as sky, csv, measured and script,
in FOLDER itself. Printed are the ends of queries that may end in more than one way, and then how often each refusal came, and each
fault. The status is 0 where none differs, and 1 else.
"""
import os
import re
import subprocess
import sys

import compare_answers
import flat_answers
import flat_children
import random_sessions
import random_worlds
import session_ends
import sqlite_answers
import table_texts
from random_queries import Writer
from sql_trees import IDS

TEXTS = ["sky", "csv", "measured", "script"]
# names of sources' columns; some are names of the objects' too
NAMES = ["flux", "t", "g", "x", "z", "band", "mag", "k1", "k2", "w", "q1", "a"]
# how many changed source tables are tried of a world, what takes the place of a field, and what that of a header
CHANGES = 8
FIELDS = ["", "-1", "0", "+5", "-", "1.0", " 1", "9223372036854775807", "9223372036854775808", "1125899906842624", "-1125899906842625", "0" * 20, "00007"]
HEADERS = ["sourceId", "sourceId,objectId,objectId", "objectId,sourceId", "sourceId,objectId,9a", "SourceId,objectId", "sourceId,objectId," + ",".join(NAMES) + ",m"]
ASKED = [
    "SELECT o.objectId,s.sourceId,s.objectId FROM Object o,Source s WHERE o.objectId=s.objectId",
    "SELECT s.sourceId,s.{} FROM Object o,Source s WHERE o.objectId=s.objectId",
]


# ---- worlds


def sources_of(draw, world):
    """The names and the rows of a source table over a world's objects."""
    ids = {draw.choice([draw.randrange(60), draw.randrange(60), draw.randrange(IDS + 1), IDS, 0]) for _ in range(draw.choice([0, 5, 20, 40, 40]))}
    known, value = [row[0] for row in world.rows] or [7], random_worlds.values(draw)
    names = ["sourceId", "objectId", *draw.sample(NAMES, draw.choice([0, 1, 2, 2, 3, 12]))]
    owner = draw.choice([lambda: known[-1], lambda: draw.choice(known), lambda: draw.choice([*known, 3, draw.randrange(20), IDS])])
    owners = list(known) if draw.random() < 0.1 else [owner() for _ in ids]
    return names, [[number, own, *(value() for _ in names[2:])] for number, own in zip(sorted(ids), owners)]


def lines_of(draw, names, rows):
    """The lines of a source table, in any order of its rows, some fields in quotes or with zeros in front."""
    rows = [["" if value is None else str(value) for value in row] for row in rows]
    draw.shuffle(rows)
    if draw.random() < 0.3:
        rows = [[draw.choice([field, f'"{field}"', re.sub(r"^(-?)(\d{1,17})$", r"\g<1>00\2", field)]) for field in row] for row in rows]
    return [",".join(row) for row in [names, *rows]]


def dressed(draw, lines):
    """The text of these lines."""
    ends = draw.choice([["\n"], ["\n"], ["\r\n"], ["\r"], ["\n", "\r\n", "\r", "\n\n", "\r\r\n"]])
    text = draw.choice(["", "", "\xef\xbb\xbf", "\r\n"]) + "".join(line + draw.choice(ends) for line in lines)
    return text if draw.random() < 0.8 else text.rstrip("\r\n")


def world_and_texts(draw, number):
    """A world with sources, and its texts but the script."""
    world, texts = random_sessions.world_and_texts(draw, number)
    if len(world.names) > 4 and draw.random() < 0.3:
        world.names[-1] = draw.choice(["sourceId", "t"])
        texts["csv"] = world.catalogue(draw)
    world = flat_children.Children(world, *sources_of(draw, world))
    return world, {**texts, "measured": dressed(draw, lines_of(draw, world.source_names, world.sources))}


# ---- queries


class Asker(random_worlds.Asker):
    """Writes child queries that mostly bind over a world with sources, as lists of words."""

    star = 0

    def __init__(self, draw, world):
        super().__init__(draw, world)
        # the qualifier of each table of a query, and the names of the table's columns
        self.own, self.risk, self.is_join = [], 0, True

    def slips(self, part=0.01):
        return self.chance(part * self.risk)

    def col(self):
        if self.slips(0.004):
            return Writer.col(self)
        qualifier, names = self.rand.choice(self.own)
        if self.slips(0.002):
            qualifier = self.rand.choice(self.own)[0]
        name = self.rand.choice(names)
        return [name] if self.slips(0.005) else [qualifier, ".", name]

    def short(self):
        return "SELECT o . objectId , s . sourceId FROM Object o , Source s WHERE o . objectId = s . objectId".split()

    def tables(self):
        """FROM: Object and Source, or what a child query may not be over."""
        tables = ["Object", "Source"]
        if self.slips(0.04):
            tables = self.rand.choice([["Source", "Object"], ["Object", "Object"], ["Source", "Source"], ["Object", "Stars"], ["Object"], ["Source"]])
        aliases = self.rand.choice([["o", "s"], ["s", "o"], ["a", "b"], ["Source", "Object"], ["Object", "Source"]])
        if self.slips(0.03):
            aliases = self.rand.choice([["o", "o"], [None, "s"], ["o", None], [None, None]])
        pairs = list(zip(tables, aliases))
        columns = {"Object": self.world.names, "Source": self.world.source_names}
        self.own = [(alias or table, columns.get(table, ["objectId"])) for table, alias in pairs]
        self.aliases = [qualifier for qualifier, _ in self.own]
        words = []
        for table, alias in pairs:
            words += [","] * bool(words) + [table] + (["AS"] * self.chance(0.2) + [alias] if alias else [])
        return ["FROM", *words]

    def joining(self):
        """The test of the two objectIds, or something near to it."""
        sides = [[self.own[at][0], ".", "objectId"] for at in (0, -1)]
        if self.slips(0.02):
            sides[1] = self.rand.choice([self.col(), ["-", *sides[1]], ["(", *sides[1], ")"], sides[0], sides[1] + ["+", "0"]])
        if self.chance(0.5):
            sides.reverse()
        words = [*sides[0], "=", *sides[1]]
        if self.slips(0.02):
            others = [["NOT", "(", *words, ")"], ["(", *words, "OR", *words, ")"], [*words, "AND", *words], [*sides[0], "<=", *sides[1]]]
            words = self.rand.choice(others)
        return words

    def other_form(self, words):
        """The words with what no child query has."""
        first = self.own[0][0]
        ending = next((at for at, word in enumerate(words) if word in ("ORDER", "LIMIT", ";")), len(words))
        ends = [
            ["SELECT", "*", *words[words.index("FROM") :]],
            ["SELECT", self.rand.choice(["COUNT", "SUM", "AVG"]), "(", *self.col(), ")", ",", *words[1:]],
            [*words[:ending], "GROUP", "BY", *self.col(), *words[ending:]],
        ]
        if "WHERE" in words:
            at = words.index("WHERE") + 1
            ends.append([*words[:at], "CHORD2", "(", first, ",", self.own[-1][0], ")", "<=", "9", "AND", *words[at:]])
        return self.rand.choice(ends)

    def other_order(self, words):
        """The words with an order key that may be none."""
        at = words.index("BY", words.index("ORDER")) + 1
        length = 3 if words[at + 1 : at + 2] == ["."] else 1
        return words[:at] + self.rand.choice([["t"], ["p", ".", "t"], ["o", ".", "sourceId"], ["objectId"]]) + words[at + length :]

    def query(self):
        # in one of ten many faults are together; six of ten have few conditions
        self.risk, self.few = 12 if self.chance(0.1) else 1, self.chance(0.6)
        self.junk = 0.002 * self.risk
        words = super().query()
        words = self.other_order(words) if "ORDER" in words and self.slips(0.05) else words
        return self.other_form(words) if self.slips(0.03) else words


# ---- answers


class Compared(flat_children.ChildBound):
    """A child query whose rows are compared with those of SQLite, if it can be asked; how many were is counted."""

    counts = None

    def rows(self):
        found, third = super().rows(), self.world.third.rows(self)
        self.counts[None, "answers compared with SQLite" if third is not None else "answers with wider values"] += 1
        if third is not None and found != third:
            raise RuntimeError(f"two computations differ, none of them the program:\n{self.line}\n{found}\n{third}")
        return found


def asked(line, world, counts):
    """The block of a query, and whether it has chunks to be scanned."""
    if not hasattr(world, "third"):
        world.third = sqlite_answers.Tables(world)
    Compared.counts = counts
    block, has_work = session_ends.asked(line, world, Compared)
    counts[None, "queries " + next(compare_answers.outcomes("\n".join(["query 1", *block])))] += 1
    return block, has_work


# ---- changed source tables


def changed(draw, world):
    """A source table with something changed, at one place or a few, or written in another way."""
    lines = lines_of(draw, world.source_names, world.sources)
    at = draw.randrange(len(lines))
    fields = lines[at].split(",")
    pick = draw.randrange(6)
    if pick == 0:
        lines[0] = draw.choice(HEADERS)
    elif pick == 1:
        lines.insert(draw.randrange(len(lines)), lines[at])
    elif pick == 2:
        fields[draw.randrange(len(fields))] = draw.choice(FIELDS)
        lines[at] = ",".join(fields)
    elif pick == 3:
        lines[at] = ",".join(draw.choice([fields[1:], fields + ["1"], fields[:1]]))
    text = dressed(draw, lines)
    for _ in range(2 if pick == 4 else draw.randrange(4) // 3):
        place = draw.randrange(len(lines[0]) if draw.random() < 0.8 else 0, len(text) + 1)
        text = text[:place] + draw.choice(["", ",", '"', "\n", "\r", "-", "0", "9", "x", "\0", "\xff"]) + text[place + draw.randrange(2) :]
    return text


def ended(words, folder, workers):
    run = [words.program, "sources", *TEXTS, str(workers)]
    end = subprocess.run(run, cwd=folder, capture_output=True, timeout=random_sessions.SECONDS)
    return end.returncode, end.stdout.decode("latin-1"), end.stderr.decode("latin-1")


def further(words, folder, draw, world, texts, counts):
    """The texts and what differs of the first changed source table over which the program ends otherwise; or None."""
    for number in range(CHANGES):
        text = changed(draw, world)
        found = table_texts.read(text.encode("latin-1"), table_texts.SOURCES)
        lines = [line.format(draw.choice(world.source_names)) for line in ASKED]
        if isinstance(found, str):
            wanted = 11, "", found + "\n"
        else:
            wanted = 0, flat_children.transcript(flat_children.Children(world, *found), lines), ""
        counts[None, "source tables with " + re.sub(r"\d+", "N", found).replace("-N", "N") if wanted[0] else "changed source tables accepted"] += 1
        texts = {**texts, "measured": text, "script": "\n".join(lines) + "\n"}
        compare_answers.write(folder, texts)
        told = ended(words, folder, words.workers[number % len(words.workers)])
        if told != wanted:
            return texts, f"a changed source table: {told}\n  wanted: {wanted}"
    return None


CHILDREN = random_sessions.Kind(TEXTS, world_and_texts, Asker, asked, further)


def main():
    words = random_sessions.parsed(__doc__, ["sources"])
    os.makedirs(words.folder, exist_ok=True)
    return random_sessions.run_all(words, CHILDREN, None)


if __name__ == "__main__":
    sys.exit(main())
