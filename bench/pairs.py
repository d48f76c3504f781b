#!/usr/bin/env python3
"""Measures what near pairs cost beyond loading, beside a plain loop in C over the same rows.

    bench/pairs.py FOLDER [--program FILE] [--rows N ..] [--clusters N] [--times N]

FILE is the built program, by default .qserv/qserv, where ./qserv leaves it.

Writes into FOLDER, once, the demo's catalogue of each of the numbers of rows (100,000, 1,000,000 and 4,000,000), and one of
N clusters (9,500) of 20 rows each that are all near each other; and compiles bench/sweep.c into it with gcc. For each catalogue
it runs the program with a script of one query, the pairs within 65,536 with the lower id first, and with an empty script, each N
times (3), and the program in C over the same files. It prints, in milliseconds of user time, the difference of the program's
least times, what the C program took for the same, and of that what it took to order the rows by height, to part them, and to
compare them. The counts of pairs are compared. The status is 1 where they differ or a line misses what is aimed at: 150 ms for
the demo's million rows, 600 for the clusters with their 1.8 million pairs in order and as text, and at most three times what C
takes for the demo's. Only figures of an idle machine count.
"""
import argparse
import math
import os
import random
import resource
import subprocess
import sys

import demo_files

HERE = os.path.dirname(os.path.abspath(__file__))
LIMIT = 65536 * 65536
QUERY = f"SELECT a.objectId,b.objectId FROM Object a,Object b WHERE chord2(a,b)<={LIMIT} AND a.objectId<b.objectId\n"
MEMBERS, SPREAD = 20, 10_000
MOST = {"demo 1000000": 150, "clusters": 600}


def onto_the_sphere(x, y, z):
    """The point of the grid next to the sphere in the direction of the point."""
    length = math.isqrt(x * x + y * y + z * z)
    return tuple((2 * part * demo_files.RADIUS + length) // (2 * length) for part in (x, y, z))


def clustered(clusters):
    """Rows in clusters: the members of each are around one of the demo's positions, and have ids in random order."""
    draw = random.Random(1)
    points = []
    for row in demo_files.rows(clusters, 1):
        for _ in range(MEMBERS):
            points.append(onto_the_sphere(*(part + draw.randint(-SPREAD, SPREAD) for part in row[1:4])))
    draw.shuffle(points)
    return [(number, *at, number % 100_000, number % 8) for number, at in enumerate(points, 1)]


def write_clusters(clusters, folder):
    os.makedirs(folder, exist_ok=True)
    lines = ["%d,%d,%d,%d,%d,%d\n" % row for row in clustered(clusters)]
    demo_files.write(folder, "sky.txt", demo_files.SKY)
    demo_files.write(folder, "catalogue.csv", "objectId,x,y,z,flux,kind\n" + "".join(lines))


def compiled(folder):
    """The C program, compiled into the folder."""
    made = os.path.join(folder, "sweep")
    subprocess.run(["gcc", "-O2", "-o", made, os.path.join(HERE, "sweep.c")], check=True)
    return made


def spent(program, folder, script):
    """The lines of the answer that the program writes, and its user milliseconds."""
    demo_files.write(folder, "measured.sql", script)
    before = resource.getrusage(resource.RUSAGE_CHILDREN).ru_utime
    words = [program, "query", "sky.txt", "catalogue.csv", "measured.sql", "0"]
    with open(os.path.join(folder, "answer.txt"), "wb") as out:
        subprocess.run(words, cwd=folder, stdout=out, check=True)
    took = 1000 * (resource.getrusage(resource.RUSAGE_CHILDREN).ru_utime - before)
    with open(os.path.join(folder, "answer.txt"), "rb") as file:
        return sum(1 for _ in file), took


def beyond_loading(program, folder, times):
    """How many pairs the program lists, and its least user milliseconds beyond loading."""
    nothing = min(spent(program, folder, "")[1] for _ in range(times))
    runs = [spent(program, folder, QUERY) for _ in range(times)]
    # (the number of the query, its headings, and a line after the pairs)
    return runs[0][0] - 3, min(took for _, took in runs) - nothing


def by_the_loop(made, folder, times):
    """The same of the C program: its pairs, and what it took for each of the three parts."""
    words = [made, "sky.txt", "catalogue.csv", str(LIMIT), str(times)]
    told = subprocess.run(words, cwd=folder, capture_output=True, text=True, check=True).stdout.split()
    return int(told[0]), [float(word) for word in told[1:]]


def measure(name, folder, rows, made, words):
    """Prints the line of a catalogue, and returns whether it is as it should be."""
    pairs, took = beyond_loading(words.program, folder, words.times)
    found, parts = by_the_loop(made, folder, words.times)
    loop = sum(parts)
    cells = [name, rows, pairs, f"{took:.0f}", f"{loop:.0f}", f"{took / loop:.1f}", *(f"{part:.0f}" for part in parts)]
    print("| " + " | ".join(map(str, cells)) + " |" + ("" if pairs == found else f" WRONG: C finds {found}"), flush=True)
    is_near = name == "clusters" or took <= 3 * loop
    return pairs == found and took <= MOST.get(name, math.inf) and is_near


def main():
    parser = argparse.ArgumentParser(description=__doc__, formatter_class=argparse.RawDescriptionHelpFormatter)
    parser.add_argument("folder")
    parser.add_argument("--program", default=os.path.join(HERE, "..", ".qserv", "qserv"))
    parser.add_argument("--rows", type=int, nargs="*", default=[100_000, 1_000_000, 4_000_000])
    parser.add_argument("--clusters", type=int, default=9_500)
    parser.add_argument("--times", type=int, default=3)
    words = parser.parse_args()
    words.program = os.path.abspath(words.program)
    words.folder = os.path.abspath(words.folder)
    os.makedirs(words.folder, exist_ok=True)
    made = compiled(words.folder)
    wanted = [(f"demo {rows}", rows, lambda folder, rows=rows: demo_files.write_all(rows, 1, folder)) for rows in words.rows]
    if words.clusters:
        wanted.append(("clusters", MEMBERS * words.clusters, lambda folder: write_clusters(words.clusters, folder)))
    print("| catalogue | rows | pairs | ms | C ms | times C | C order | C part | C sweep |\n" + "|---" * 9 + "|", flush=True)
    status = 0
    for name, rows, write in wanted:
        folder = os.path.join(words.folder, f"{name.split()[0]}-{rows}")
        if not os.path.isfile(os.path.join(folder, "catalogue.csv")):
            write(folder)
        status = status if measure(name, folder, rows, made, words) else 1
    return status


if __name__ == "__main__":
    sys.exit(main())
