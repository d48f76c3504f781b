#!/usr/bin/env python3
"""Measures queries beyond loading, by one program or by several in turns.

    bench/turns.py FOLDER PROGRAM.. [--rows N] [--workers N] [--times N] [--many-chunks]

Writes the demo's catalogue of N rows (1,000,000) into FOLDER, once, beside the demo's sky, or with --many-chunks a sky of 256
chunks. For each line it runs each program with a script of that line and with an empty script, one after the other, N times (3).
A cheap line is in its script several times. It prints, in milliseconds for each line once, the difference of the least times
and of the medians, by the clock and of the processors. All programs write the same bytes, or the status is 1. Where other work
runs beside it, `chrt -f 1` before the command keeps most of that off.
"""
import argparse
import os
import resource
import statistics
import subprocess
import sys
import time

import demo_files
import run

SCANS = [f"SELECT COUNT(*), SUM(flux), MAX(z) FROM Object WHERE flux > {700 * k}" for k in range(64)]
NEAR = "SELECT a.objectId,b.objectId FROM Object a,Object b WHERE chord2(a,b)<=4294967296 AND a.objectId<b.objectId"
# the name, the queries, and how often they are in the script
LINES = [
    ("200 look-ups by id", [f"SELECT flux FROM Object WHERE objectId={499 * k + 1}" for k in range(200)], 1),
    ("one list of 100 ids", [f"SELECT flux FROM Object WHERE objectId IN ({','.join(str(997 * k + 3) for k in range(100))})"], 40),
    ("the first 10", ["SELECT objectId,flux FROM Object ORDER BY flux DESC LIMIT 10"], 32),
    ("the first 100, a condition", ["SELECT objectId,flux FROM Object WHERE z>0 ORDER BY flux DESC LIMIT 100"], 32),
    ("64 scans", SCANS, 1),
    ("near pairs", [NEAR], 1),
]


def measured(words, folder, queries):
    """What the program writes for the script, and its milliseconds by the clock and of the processors."""
    demo_files.write(folder, "turns.sql", "".join(query + "\n" for query in queries))
    before, began = resource.getrusage(resource.RUSAGE_CHILDREN), time.monotonic()
    ended = subprocess.run(words, cwd=folder, capture_output=True, check=True)
    took, after = time.monotonic() - began, resource.getrusage(resource.RUSAGE_CHILDREN)
    spent = after.ru_utime - before.ru_utime + after.ru_stime - before.ru_stime
    return ended.stdout, (1000 * took, 1000 * spent)


def beyond(line, empty, copies):
    """The difference of the least and of the medians, by the clock and of the processors."""
    return [(pick(one[side] for one in line) - pick(one[side] for one in empty)) / copies
            for side in (0, 1) for pick in (min, statistics.median)]


def main():
    parser = argparse.ArgumentParser(description=__doc__, formatter_class=argparse.RawDescriptionHelpFormatter)
    parser.add_argument("folder")
    parser.add_argument("programs", nargs="+", type=os.path.abspath)
    for name, default in (("rows", 1_000_000), ("workers", 0), ("times", 3)):
        parser.add_argument(f"--{name}", type=int, default=default)
    parser.add_argument("--many-chunks", action="store_true")
    asked = parser.parse_args()
    folder = os.path.abspath(asked.folder)
    if not os.path.exists(os.path.join(folder, "catalogue.csv")):
        os.makedirs(folder, exist_ok=True)
        subprocess.run([sys.executable, os.path.join(run.HERE, "demo_files.py"), str(asked.rows), "7", folder], check=True)
    demo_files.write(folder, "many.txt", run.sky_text(256))
    sky = "many.txt" if asked.many_chunks else "sky.txt"
    lines = [("", [], 1)] + LINES
    took, texts = {}, {}
    for _ in range(asked.times):
        for name, queries, copies in lines:
            for program in asked.programs:
                words = [program, "query", sky, "catalogue.csv", "turns.sql", str(asked.workers)]
                text, times = measured(words, folder, queries * copies)
                took.setdefault((program, name), []).append(times)
                if texts.setdefault(name, text) != text:
                    sys.exit(f"another answer: {name}, by {program}")
    print("| line | program | clock, least | median | processors, least | median |")
    print("|---|---|---|---|---|---|")
    for name, _, copies in LINES:
        for program in asked.programs:
            figures = beyond(took[program, name], took[program, ""], copies)
            print(f"| {name} | {os.path.basename(program)} | " + " | ".join(f"{figure:.2f}" for figure in figures) + " |")


if __name__ == "__main__":
    main()
