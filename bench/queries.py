#!/usr/bin/env python3
"""Measures what queries cost beyond loading, over the demo's catalogue.

    bench/queries.py FOLDER [--program FILE] [--rows N] [--times N]

FILE is the built program, by default .qserv/qserv, where ./qserv leaves it. Writes the demo's catalogue of N rows
(1,000,000) into FOLDER, once. For each line of the table it runs the program with a script of that query and with an empty
script, each N times (3), and prints the difference of the least user times in milliseconds, of one query, beside what is
aimed at for a million rows. A query that costs little is in its script several times. Each answer is compared with one
computed here from the flat list, the dull way; of the pairs, how many they are. The status is 1 where an answer is another,
or where a line costs more than is aimed at. Only figures of an idle machine count.
"""
import argparse
import collections
import functools
import os
import resource
import subprocess
import sys

import demo_files

HERE = os.path.dirname(os.path.abspath(__file__))
REACH = 65536


def ask(program, folder, script):
    """What the program writes for the script, and its user seconds."""
    with open(os.path.join(folder, "measured.sql"), "w", encoding="ascii") as file:
        file.write(script)
    before = resource.getrusage(resource.RUSAGE_CHILDREN).ru_utime
    words = [program, "query", "sky.txt", "catalogue.csv", "measured.sql", "0"]
    ended = subprocess.run(words, cwd=folder, capture_output=True, text=True, check=True)
    return ended.stdout, resource.getrusage(resource.RUSAGE_CHILDREN).ru_utime - before


# ---- answers from the flat list


def average(total, count):
    size = (2 * total * 10000 + count) // (2 * count)
    return f"{size // 10000}.{size % 10000:04}"


def totals(rows):
    flux = [row[4] for row in rows]
    return [(len(flux), sum(flux), average(sum(flux), len(flux)), min(flux), max(flux))]


def counts(rows, column):
    return sorted(collections.Counter(row[column] for row in rows).items())


def most_frequent(rows):
    return sorted(counts(rows, 4), key=lambda group: (-group[1], group[0]))[:10]


def brightest(rows):
    return [(row[0], row[4]) for row in sorted(rows, key=lambda row: (-row[4], row[0]))[:10]]


def conditioned(rows, k):
    return [(sum(1 for row in rows if row[4] > 1000 * k and row[3] < 1000000 * k),)]


def in_cap(rows):
    return [(row[0],) for row in rows if (row[1] - 268435456) ** 2 + row[2] ** 2 + row[3] ** 2 <= 10**12]


def near_pairs(rows):
    """The pairs within the reach, each once, by cells of a grid as wide as the reach."""
    cells = collections.defaultdict(list)
    for row in rows:
        cells[tuple(part // REACH for part in row[1:4])].append(row)
    found = 0
    steps = [(x, y, z) for x in (-1, 0, 1) for y in (-1, 0, 1) for z in (-1, 0, 1)]
    for cell, own in cells.items():
        others = [row for step in steps for row in cells.get(tuple(a + b for a, b in zip(cell, step)), [])]
        for a in own:
            for b in others:
                if a[0] < b[0] and sum((p - q) ** 2 for p, q in zip(a[1:4], b[1:4])) <= REACH * REACH:
                    found += 1
    return found


# the name, the queries of one measurement, how often they are in the script, and the milliseconds aimed at
ALL = "SELECT COUNT(*),SUM(flux),AVG(flux),MIN(flux),MAX(flux) FROM Object"
LINES = [
    ("five aggregates of a column", [ALL], 32, 50),
    ("COUNT, MAX", ["SELECT COUNT(*),MAX(flux) FROM Object"], 32, 10),
    ("64 counts, each with a condition", [f"SELECT COUNT(*) FROM Object WHERE flux>{1000 * k} AND z<{1000000 * k}" for k in range(64)], 1, 200),
    ("GROUP BY 8 values", ["SELECT kind,COUNT(*) FROM Object GROUP BY kind"], 32, 10),
    ("GROUP BY 100,000 values, the ten largest", ["SELECT flux,COUNT(*) AS n FROM Object GROUP BY flux ORDER BY n DESC LIMIT 10"], 4, 120),
    ("a tenth of the rows as text", ["SELECT objectId,flux FROM Object WHERE flux<10000"], 8, 40),
    ("ORDER BY .. LIMIT 10", ["SELECT objectId,flux FROM Object ORDER BY flux DESC LIMIT 10"], 32, 15),
    ("a small cap", ["SELECT objectId FROM Object WHERE area_cap(268435456,0,0,1000000000000)"], 200, 1),
    ("one id", ["SELECT flux FROM Object WHERE objectId=500000"], 200, 1),
    ("pairs within 65,536", [f"SELECT a.objectId,b.objectId FROM Object a,Object b WHERE chord2(a,b)<={REACH * REACH} AND a.objectId<b.objectId"], 1, 150),
]


def wanted(rows):
    """For each line the answers' lines; None for the pairs, of which the count is compared."""
    return [
        [totals(rows)],
        [[(len(rows), max(row[4] for row in rows))]],
        [conditioned(rows, k) for k in range(64)],
        [counts(rows, 5)],
        [most_frequent(rows)],
        [[(row[0], row[4]) for row in rows if row[4] < 10000]],
        [brightest(rows)],
        [in_cap(rows)],
        [[(row[4],) for row in rows if row[0] == 500000]],
        None,
    ]


def answers(text):
    """The data lines of each block."""
    blocks = text.split("query ")[1:]
    return [block.splitlines()[2:-1] for block in blocks]


def is_right(told, lines, times, pairs):
    if lines is None:
        return all(len(block) == pairs() for block in told)
    return told == [[",".join(map(str, line)) for line in block] for block in lines] * times


def main():
    parser = argparse.ArgumentParser(description=__doc__, formatter_class=argparse.RawDescriptionHelpFormatter)
    parser.add_argument("folder")
    parser.add_argument("--program", default=os.path.join(HERE, "..", ".qserv", "qserv"))
    parser.add_argument("--rows", type=int, default=1_000_000)
    parser.add_argument("--times", type=int, default=3)
    words = parser.parse_args()
    program = os.path.abspath(words.program)
    rows = list(demo_files.rows(words.rows, 1))
    if not os.path.isfile(os.path.join(words.folder, "catalogue.csv")):
        demo_files.write_all(words.rows, 1, words.folder)
    pairs = functools.cache(lambda: near_pairs(rows))
    nothing = min(ask(program, words.folder, "")[1] for _ in range(words.times))
    print(f"| {words.rows} rows | ms a query | aimed at |\n|---|---|---|\n| loading | {1000 * nothing:.0f} | |")
    status = 0
    for (name, queries, often, most), lines in zip(LINES, wanted(rows)):
        script = "".join(query + "\n" for query in queries * often)
        runs = [ask(program, words.folder, script) for _ in range(words.times)]
        right = is_right(answers(runs[0][0]), lines, often, pairs)
        cost = 1000 * (min(seconds for _, seconds in runs) - nothing) / often
        print(f"| {name} | {cost:.1f} | {most} |{'' if right else ' WRONG'}", flush=True)
        status = status if right and cost <= most else 1
    return status


if __name__ == "__main__":
    sys.exit(main())
