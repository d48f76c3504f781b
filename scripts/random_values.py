#!/usr/bin/env python3
"""Compares what the built program computes at the ends of what numbers can be with what is computed here from the flat table.

    scripts/random_values.py FOLDER [--program FILE] [--scripts N] [--seed SEED] [--workers N ..]

`compare_answers.py` draws queries of every kind, and few of them have the numbers that this one is about. For each of N
scripts (60) it draws a catalogue of groups of rows with a value, mostly 32, 96 or 160 of them, whose averages often end in half
of a ten-thousandth, and some with NULL; values are small, or the largest and their neighbours of either sign; ids are 0,
2^63 - 1 and any. Its 40 queries are conditions and aggregates over expressions whose bounds are 2^63 or 2^100, or one below
or above; compared with literals up to 2^63 - 1; and totals within and beyond 2^100. `flat_answers.py` says what is wanted.

FILE is the built program, by default .qserv/qserv, where ./qserv leaves it. The texts sky, csv and script of the last script,
and of the first one that differs, stay in FOLDER. It prints how often the kinds of numbers came; the status is 0 where none
differs, and 1 else.
"""
import collections
import os
import random
import sys

import compare_answers
import flat_answers
import random_worlds
import sql_trees

# program_words is in bench/, which is on the path since compare_answers was imported
import program_words
from sql_trees import FURTHER, IDS

NAMES = ["objectId", "x", "y", "z", "f", "g", "k"]
EDGES = [FURTHER, FURTHER - 1, 1 << 49, 1 << 32, 1, 0]
LITERALS = [0, 1, 2, 7, 1 << 31, 1 << 32, FURTHER, FURTHER + 1, 1 << 62, IDS - 1, IDS]
# expressions whose bounds are around 2^63 and 2^100, and others
EXPRS = [
    "f", "g", "-f", "f-g", "f*g", "-f*g", "f*g+0", "f*g+1", "f*f", "f*g-f", "f*8191", "f*8192", "f*8191+g", "f*8192+g", "-f*8192-1",
    "objectId", "-objectId", "objectId+0", "objectId+1", "-objectId-1", "objectId-objectId", "0-objectId-objectId",
    "objectId*137438953471", "objectId*137438953472", "objectId*137438953473", "(f+g)*2", "(f-g)*2097152*268435456", "f*g-0-0",
    "f*1125899906842624", "f*1125899906842625", "(f*2+g)*7", "x*y*z", "x*x+y*y+z*z", "9223372036854775807", "-9223372036854775807-1",
]  # fmt: skip


def value(draw, is_extreme):
    """A value of a row, with a sign."""
    return draw.choice([1, -1]) * (draw.choice(EDGES) if is_extreme else draw.randrange(4))


def world(draw):
    """A world of some groups, by the column k."""
    rows, is_extreme = [], draw.random() < 0.5
    for key in range(draw.randrange(1, 5)):
        nulls = draw.choice([0, 0, 1, 5])
        filled = draw.choice([1, 2, 3, 32, 32, 96, 160])
        name = draw.choice([None, key]) if key == 0 else key
        for place in range(filled + nulls):
            f = None if place < nulls else value(draw, is_extreme and draw.random() < 0.5)
            g = None if draw.random() < 0.1 else value(draw, is_extreme)
            rows.append([f, g, name])
    far = draw.random() < 0.5
    ids = draw.sample(range(IDS - 2000, IDS + 1) if far else range(2000), len(rows) - 1) + [0 if far else IDS]
    sky = random_worlds.places.Sky(random_worlds.SKIES[0])
    made = [[number, *random_worlds.position(draw, sky), *cells] for number, cells in zip(sorted(ids), rows)]
    return random_worlds.World(random_worlds.SKIES[0], NAMES, made)


def literal(draw):
    return draw.choice(["", "-"]) + str(draw.choice(LITERALS))


def test(draw):
    """A test of an expression."""
    expr, other = draw.choice(EXPRS), draw.choice([literal(draw), literal(draw), draw.choice(EXPRS)])
    negation = draw.choice(["", "", "NOT "])
    kind = draw.randrange(6)
    if kind < 3:
        return f"{expr}{draw.choice(['=', '<>', '<', '<=', '>', '>='])}{other}"
    if kind == 3:
        return f"{expr} {negation}BETWEEN {literal(draw)} AND {other}"
    if kind == 4:
        return f"{expr} {negation}IN ({','.join(literal(draw) for _ in range(draw.randrange(1, 5)))})"
    return f"{expr} IS {negation}NULL"


def condition(draw):
    """One test or some, joined and negated."""
    tests = [draw.choice(["", "", "NOT "]) + test(draw) for _ in range(draw.choice([1, 1, 2, 3]))]
    words = tests[0]
    for other in tests[1:]:
        words += draw.choice([" AND ", " OR "]) + other
    return draw.choice([words, f"NOT ({words})"])


def query(draw):
    where, expr = f" WHERE {condition(draw)}", draw.choice(EXPRS)
    if draw.random() < 0.4:
        order = draw.choice(["", " ORDER BY v", " ORDER BY v DESC", " ORDER BY v DESC LIMIT 7"])
        return f"SELECT objectId,{expr} AS v FROM Object{where}{order}"
    if draw.random() < 0.5:
        # whole groups, whose averages end in halves where their values are small
        where, expr = "", draw.choice([expr, "f", "-f", "f*8192+g", "f*g"])
    items = draw.sample([f"{word}({expr})" for word in ("COUNT", "SUM", "AVG", "AVG", "MIN", "MAX")], draw.randrange(1, 5))
    by = draw.choice(["", " GROUP BY k", " GROUP BY k", " GROUP BY k,g"])
    return f"SELECT {','.join(items)} FROM Object{where}{by}"


def watched(counts):
    """Has the flat computation count averages that end in a half, and numbers beyond 64 bits."""
    begin, worth = flat_answers.Average.__init__, sql_trees.Expr.worth

    def begin_counted(average, total, count):
        begin(average, total, count)
        if 2 * abs(total) * 10000 % (2 * count) == count:
            counts[f"averages {'below' if total < 0 else 'above'} 0 that end in a half"] += 1

    def worth_counted(expr, pick):
        found = worth(expr, pick)
        if found is not None and abs(found) > IDS:
            counts[f"numbers of {'2^100' if abs(found) == 1 << 100 else 'more than 64 bits'}"] += 1
        return found

    flat_answers.Average.__init__, sql_trees.Expr.worth = begin_counted, worth_counted


def main():
    parser = program_words.parser(__doc__, scripts=60, seed=1)
    parser.add_argument("--workers", type=int, nargs="+", default=[0])
    words = parser.parse_args()
    os.makedirs(words.folder, exist_ok=True)
    draw, counts, numbers = random.Random(words.seed), collections.Counter(), collections.Counter()
    watched(numbers)
    for number in range(1, words.scripts + 1):
        drawn, lines = world(draw), [query(draw) for _ in range(40)]
        texts = {"sky": drawn.sky.text, "csv": drawn.catalogue(draw), "script": "\n".join(lines) + "\n"}
        compare_answers.write(words.folder, texts)
        wanted = flat_answers.transcript(drawn, lines)
        counts.update(compare_answers.outcomes(wanted))
        for workers in words.workers:
            if compare_answers.differs(words.program, words.folder, ["query", "sky", "csv", "script", str(workers)], wanted):
                print(f"script {number} differs; its texts are in {words.folder}")
                return 1
    print(f"{words.scripts} scripts of {sum(counts.values())} queries answered: none differs")
    print(", ".join(f"{count} {kind}" for kind, count in (counts + numbers).most_common()))
    return 0


if __name__ == "__main__":
    sys.exit(main())
