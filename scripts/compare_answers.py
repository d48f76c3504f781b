#!/usr/bin/env python3
"""Compares what the built program writes for random scripts with what is computed here from the flat table.

    scripts/compare_answers.py FOLDER [--program FILE] [--scripts N] [--large N] [--demos N] [--seed SEED] [--workers N ..]

For each of N scripts (100) it draws a sky, a small catalogue (NULLs, values at the ends of their range, positions on and
beside sides and borders) and 60 lines: queries of every kind, some with one token changed, some of the grammar alone. N more
scripts (10) have 25 lines, over catalogues of 120 to 1,000 rows. The program answers and explains each script and reports
its chunks, and answers N demos (20) of fewer than 400 objects. `flat_answers.py` says what is wanted: answers over the list
of all rows, or of all pairs of rows, the line of each refusal, explanations, and the rows of each chunk's region and near
region. The bytes are compared. Before these the script in examples/ is answered, and compared with the transcript there,
which was written by hand.

FILE is the built program, by default .qserv/qserv, where ./qserv leaves it. The texts sky, csv and script of the last
script, and of the first one that differs, stay in FOLDER, which is made where it isn't there. The status is 0 where none
differs, and 1 else.
"""
import collections
import os
import random
import re
import subprocess
import sys

import flat_answers
import random_worlds
from random_queries import Writer

HERE = os.path.dirname(os.path.abspath(__file__))
sys.path.append(os.path.join(HERE, "..", "bench"))
import demo_files  # noqa: E402  (they are in the other folder)
import program_words  # noqa: E402

LONGEST = 16384
DEMO_NAMES = ["objectId", "x", "y", "z", "flux", "kind"]


def script_of(draw, world, count):
    """So many lines of queries, or almost, over a world."""
    asker, lines = random_worlds.Asker(draw, world), []
    for _ in range(count):
        words, pick = asker.query(), draw.random()
        if pick < 0.15:
            words = asker.changed(words)
        elif pick < 0.2:
            words = Writer(draw).query()
        lines.append(asker.text(words))
    return "".join(line + "\n" for line in lines if len(line) <= LONGEST)


def queries_of(script):
    """The queries of a script that has no other steps: its lines that are no notes, each without one CR at its end."""
    lines = [line[:-1] if line.endswith("\r") else line for line in script.split("\n")[:-1]]
    return [line for line in lines if line.strip(" \t") and not line.startswith("#")]


def write(folder, texts):
    for name, text in texts.items():
        with open(os.path.join(folder, name), "w", encoding="latin-1", newline="") as file:
            file.write(text)


def differs(program, folder, words, wanted):
    """Runs the program with the words; says where it writes something else, and returns whether it does."""
    ended = subprocess.run([program, *words], cwd=folder, capture_output=True)
    told = ended.stdout.decode("latin-1")
    if ended.returncode == 0 and told == wanted:
        return False
    print(f"{' '.join(words)}: status {ended.returncode}, {ended.stderr.decode('latin-1').strip()}")
    for line, (a, b) in enumerate(zip(told.split("\n"), wanted.split("\n")), 1):
        if a != b:
            print(f"line {line}: {a}\n   wanted: {b}")
            break
    return True


def outcomes(text):
    """How the blocks of a transcript end: answered, with no rows, or for which reason refused."""
    for block in text.split("query ")[1:]:
        line = block.split("\n")[1]
        if line.startswith("refused: "):
            named = "unknown name|is not grouped|area form|unknown order key|radius|total|bad byte|number too large|brackets too deep"
            found = re.search(named, line)
            yield found[0] if found else line[len("refused: ") :]
        else:
            yield "without rows" if "\n0 rows, " in block else "answered"


def compare_script(program, folder, draw, world, lines, workers, counts):
    """Whether the program writes something else for one script."""
    script = script_of(draw, world, lines)
    write(folder, {"sky": world.sky.text, "csv": world.catalogue(draw), "script": script})
    queries = queries_of(script)
    wanted = flat_answers.transcript(world, queries)
    counts.update(outcomes(wanted))
    found = [differs(program, folder, ["query", "sky", "csv", "script", str(number)], wanted) for number in workers]
    found.append(differs(program, folder, ["explain", "sky", "csv", "script"], flat_answers.explanation(world, queries)))
    return any([*found, differs(program, folder, ["load", "sky", "csv"], flat_answers.report(world))])


def compare_demo(program, folder, draw, workers):
    """Whether the program writes something else for one demo."""
    count, seed = draw.choice([0, 1, 2, draw.randrange(400)]), draw.choice([1, 2147483646, draw.randrange(1, 2147483647)])
    world = random_worlds.World(demo_files.SKY, DEMO_NAMES, [list(row) for row in demo_files.rows(count, seed)])
    wanted = flat_answers.transcript(world, queries_of(demo_files.SCRIPT))
    return any([differs(program, folder, ["demo", str(count), str(seed), str(number)], wanted) for number in workers])


def compare_example(program, workers):
    """Whether the program writes something else for the example."""
    folder = os.path.join(HERE, "..", "examples")
    with open(os.path.join(folder, "transcript.txt"), encoding="ascii") as file:
        wanted = file.read()
    texts = ["sky.txt", "catalogue.csv", "script.sql"]
    return any([differs(program, folder, ["query", *texts, str(number)], wanted) for number in workers])


def main():
    parser = program_words.parser(__doc__, scripts=100, large=10, demos=20, seed=1)
    parser.add_argument("--workers", type=int, nargs="+", default=[0])
    words = parser.parse_args()
    program = words.program
    os.makedirs(words.folder, exist_ok=True)
    if compare_example(program, words.workers):
        return 1
    draw, counts = random.Random(words.seed), collections.Counter()
    worlds = [(random_worlds.small, 60)] * words.scripts + [(random_worlds.large, 25)] * words.large
    for number, (make, lines) in enumerate(worlds, 1):
        if compare_script(program, words.folder, draw, make(draw), lines, words.workers, counts):
            print(f"script {number} differs; its texts are in {words.folder}")
            return 1
    for _ in range(words.demos):
        if compare_demo(program, words.folder, draw, words.workers):
            return 1
    print(f"{len(worlds)} scripts of {sum(counts.values())} queries answered and explained, {words.demos} demos: none differs")
    print(", ".join(f"{count} {kind}" for kind, count in counts.most_common()))
    return 0


if __name__ == "__main__":
    sys.exit(main())
