#!/usr/bin/env python3
"""Measures the built program over catalogues of growing size and skies of more and more chunks.

    bench/run.py FOLDER [--growth | --targets] [--program FILE] [--rows N ..] [--chunks N ..] [--order ascending|random]
        [--further COUNT]

FILE is the built program, by default .qserv/qserv, where ./qserv leaves it.

Writes its inputs into FOLDER (made where it isn't there; files that are there already are used again), runs the
program over each, and prints a line for each run: rows, chunks, bytes, seconds (the least of three), and the most
memory held at once. Each run's answer is compared with one computed here from the flat list.

With --growth each run is a `load`, which reads the catalogue, builds the store and reports. Beside it is a run that
only reads the catalogue: a `query` whose script is missing, which ends when it asks for the script, before a store is
built. Seconds are then user time, which says more than wall time on a machine that is busy, and beside it wall time;
the sixth column is what the store costs for a million rows.

With --targets it measures what is aimed at of the table: user seconds of reading 1,000,000 rows of six fields, in ascending
and in random order, and of the store with its blocks over 256 chunks; the memory of 4,194,304 rows of sixteen fields, whose
catalogue takes half a gigabyte in FOLDER. Each line has the most that is wanted; those of reading also what load.c takes, which
reads the same catalogue by plain loops in C, and how many times that they are. load.c is compiled with gcc for x86-64-v2 into
FOLDER, its runs are between those of the program, and its answer is compared with one computed here. It ends with 1 where a line
has more than is wanted. Only figures of an idle machine count.
"""
import argparse
import bisect
import math
import os
import subprocess
import sys
import time

HERE = os.path.dirname(os.path.abspath(__file__))
LOW, HIGH = -1_000_000, 1_000_000


def write(path, text):
    with open(path, "w") as file:
        file.write(text)


# chunks in all: stripes, chunks of each, columns and rows of each chunk
SKIES = {8: (2, 4, 2, 2), 256: (4, 64, 8, 8), 16384: (16, 1024, 8, 8)}
# about an arc minute
OVERLAP = 78_000
# a script that isn't there, and the program's status for a text that cannot be read
MISSING, CANNOT_BE_READ = "no_script.sql", 7


def lows(stripes):
    """The lower bounds of a number of stripes of one height."""
    return [-268435472 + i * (536870944 // stripes) for i in range(stripes)]


def sky_text(chunks):
    stripes, wedges, columns, rows = SKIES[chunks]
    words = f"{wedges} {columns} {rows}"
    return f"overlap {OVERLAP}\n" + "".join(f"stripe {low} {words}\n" for low in lows(stripes))


def heading(n, k):
    """Where wedge k of n begins: the point 8k steps along the square of half side n."""
    s = 8 * k
    parts = [(n, s), (2 * n - s, n), (-n, 4 * n - s), (s - 6 * n, -n), (n, s - 8 * n)]
    return parts[bisect.bisect_right([n, 3 * n, 5 * n, 7 * n], s)]


def wedge_of(planes, angles, x, y):
    """The wedge that holds (x, y): a guess by the angle, set right by the planes themselves."""
    wedges = len(planes) - 1
    k = (bisect.bisect_right(angles, math.atan2(y, x) % (2 * math.pi)) - 1) % wedges

    def past(d):
        return d[0] * y - d[1] * x

    while x != 0 or y != 0:
        if past(planes[k]) < 0:
            k = (k - 1) % wedges
        elif past(planes[k + 1]) >= 0:
            k = (k + 1) % wedges
        else:
            return k
    return 0


def rows_of(path, chunks):
    """Each row's id and z, and its stripe and wedge, from the flat list."""
    stripes, wedges, _, _ = SKIES[chunks]
    bounds = lows(stripes)
    planes = [heading(wedges, k) for k in range(wedges + 1)]
    angles = [math.atan2(dy, dx) % (2 * math.pi) for dx, dy in planes[:-1]]
    with open(path) as file:
        next(file)
        for line in file:
            objectid, x, y, z = map(int, line.split(",")[:4])
            yield objectid, z, (bisect.bisect_right(bounds, z) - 1) * wedges + wedge_of(planes, angles, x, y)


def expected(path, chunks):
    """The transcript of one query."""
    answer, filled = [], set()
    for objectid, z, chunk in rows_of(path, chunks):
        if LOW <= z <= HIGH:
            answer.append(objectid)
        filled.add(chunk)
    lines = ["query 1", "objectId", *map(str, sorted(answer)), f"{len(answer)} rows, {len(filled)} chunks"]
    return "\n".join(lines) + "\n"


def expected_report(path, chunks):
    """The load report without the overlaps; `scripts/compare_places.py` compares which chunks a position is near."""
    held = [0] * chunks
    for _, _, chunk in rows_of(path, chunks):
        held[chunk] += 1
    filled = [chunk for chunk in range(chunks) if held[chunk] > 0]
    lines = [f"{sum(held)} rows, {len(filled)} of {chunks} chunks"]
    return lines + [f"chunk {chunk}: {held[chunk]} rows" for chunk in filled]


def measure(program, folder, words, wanted=0):
    """Wall seconds and user seconds, each the least of three runs; kilobytes held at most; the output."""
    wall, user, most, output = [], [], 0, b""
    for _ in range(3):
        began = time.monotonic()
        child = subprocess.Popen(
            [program, *words], cwd=folder, stdout=subprocess.PIPE, stderr=subprocess.DEVNULL
        )
        output = child.stdout.read()
        _, status, used = os.wait4(child.pid, 0)
        wall.append(time.monotonic() - began)
        if os.waitstatus_to_exitcode(status) != wanted:
            sys.exit(f"{' '.join(words)}: the program ended with {os.waitstatus_to_exitcode(status)}, not {wanted}")
        user.append(used.ru_utime)
        most = max(most, used.ru_maxrss)
    return min(wall), min(user), most, output.decode()


def query_line(program, folder, rows, chunks, name):
    path, sky = os.path.join(folder, name), f"sky_{chunks}.txt"
    seconds, _, most, output = measure(program, folder, ["query", sky, name, "script.sql", "0"])
    if output != expected(path, chunks):
        sys.exit(f"{name}, {chunks} chunks: the answer differs from the flat list's")
    return f"| {rows} | {chunks} | {os.path.getsize(path)} | {seconds:.2f} | {most / 1024:.0f} |"


def growth_line(program, folder, rows, chunks, name):
    sky = f"sky_{chunks}.txt"
    reading_wall, reading, reading_most, _ = measure(
        program, folder, ["query", sky, name, MISSING, "0"], CANNOT_BE_READ
    )
    wall, seconds, most, output = measure(program, folder, ["load", sky, name])
    if [line.split(",")[0] if n > 0 else line for n, line in enumerate(output.splitlines())] != expected_report(
        os.path.join(folder, name), chunks
    ):
        sys.exit(f"{name}, {chunks} chunks: the report differs from the flat list's")
    above = (seconds - reading) * 1_000_000 / rows
    return (
        f"| {rows} | {chunks} | {reading:.2f} | {seconds:.2f} | {seconds - reading:.2f} | {above:.2f} "
        f"| {reading_wall:.2f} | {wall:.2f} | {reading_most / 1024:.0f} | {most / 1024:.0f} |"
    )


# what is aimed at, in user seconds: reading in each order, and the store over 256 chunks; and in megabytes a full table
READING_MOST, STORE_MOST, FULL_MOST = {"ascending": 0.20, "random": 0.30}, 0.08, 3000


def written_catalogue(folder, rows, order, further):
    """The name of a catalogue in the folder, which is written where it isn't there."""
    name = f"catalogue_{rows}_{order}_{further}.csv"
    path = os.path.join(folder, name)
    if not os.path.exists(path):
        with open(path, "w") as file:
            subprocess.run(
                [sys.executable, os.path.join(HERE, "catalogue.py"), str(rows), "--order", order]
                + ["--further", str(further)],
                stdout=file,
                check=True,
            )
    return name


def expected_sum(path):
    """What load.c writes: how many rows there are, and a sum of all values by their rows' numbers in ascending id."""
    with open(path) as file:
        next(file)
        rows = sorted(([int(value or 0) for value in line.strip().split(",")] for line in file), key=lambda row: row[0])
    return f"{len(rows)} {sum(n * sum(row) for n, row in enumerate(rows, 1)) % (1 << 64)}\n"


def reading_seconds(program, folder, name):
    """User seconds of reading a catalogue, by the program and by load.c: of each the least of nine runs, in turns of three."""
    made = os.path.join(os.path.abspath(folder), "load_in_c")
    subprocess.run(["gcc", "-O3", "-march=x86-64-v2", "-o", made, os.path.join(HERE, "load.c")], check=True)
    wanted, ours, in_c = expected_sum(os.path.join(folder, name)), [], []
    for _ in range(3):
        ours.append(measure(program, folder, ["query", "sky_256.txt", name, MISSING, "0"], CANNOT_BE_READ)[1])
        _, seconds, _, told = measure(made, folder, [name])
        if told != wanted:
            sys.exit(f"{name}: load.c tells {told.strip()}, not {wanted.strip()}")
        in_c.append(seconds)
    return min(ours), min(in_c)


def target_lines(program, folder):
    """The lines of what is aimed at, and whether each is met."""
    lines, met = ["| what | measured | at most | in C | times |", "|---|---|---|---|---|"], True
    for order, most in READING_MOST.items():
        name = written_catalogue(folder, 1_000_000, order, 2)
        reading, in_c = reading_seconds(program, folder, name)
        _, whole, _, _ = measure(program, folder, ["load", "sky_256.txt", name])
        rows = f"1000000 rows of six fields, {order}"
        lines.append(f"| user s: reading, {rows} | {reading:.2f} | {most:.2f} | {in_c:.2f} | {reading / in_c:.1f} |")
        lines.append(f"| user s: store, {rows} | {whole - reading:.2f} | {STORE_MOST:.2f} | | |")
        met = met and reading <= most and whole - reading <= STORE_MOST
    full = written_catalogue(folder, 4_194_304, "random", 12)
    _, _, kilobytes, _ = measure(program, folder, ["load", "sky_256.txt", full])
    lines.append(f"| MB: load, 4194304 rows of sixteen fields, random | {kilobytes / 1024:.0f} | {FULL_MOST} | | |")
    return lines, met and kilobytes / 1024 <= FULL_MOST


def main():
    parser = argparse.ArgumentParser(description=__doc__, formatter_class=argparse.RawDescriptionHelpFormatter)
    parser.add_argument("folder")
    parser.add_argument("--growth", action="store_true")
    parser.add_argument("--targets", action="store_true")
    parser.add_argument("--program", default=os.path.join(HERE, "..", ".qserv", "qserv"))
    parser.add_argument("--rows", type=int, nargs="+", default=[100_000, 1_000_000, 4_000_000])
    parser.add_argument("--chunks", type=int, nargs="+", choices=SKIES, default=list(SKIES))
    parser.add_argument("--order", choices=["ascending", "random"], default="ascending")
    parser.add_argument("--further", type=int, default=0, help="how many columns each row has behind z")
    words = parser.parse_args()
    os.makedirs(words.folder, exist_ok=True)
    program = os.path.abspath(words.program)
    for chunks in words.chunks:
        write(os.path.join(words.folder, f"sky_{chunks}.txt"), sky_text(chunks))
    write(
        os.path.join(words.folder, "script.sql"),
        f"SELECT objectId FROM Object WHERE z BETWEEN {LOW} AND {HIGH}\n",
    )
    if words.targets:
        lines, met = target_lines(program, words.folder)
        print("\n".join(lines), flush=True)
        sys.exit(0 if met else 1)
    if words.growth:
        print(
            "| rows | chunks | reading s | load s | store s | store s a million rows "
            "| reading wall s | load wall s | MB reading | MB load |"
        )
        print("|---|---|---|---|---|---|---|---|---|---|")
    else:
        print("| rows | chunks | bytes | seconds | MB at most |")
        print("|---|---|---|---|---|")
    line_of = growth_line if words.growth else query_line
    for rows in words.rows:
        name = written_catalogue(words.folder, rows, words.order, words.further)
        for chunks in words.chunks:
            print(line_of(program, words.folder, rows, chunks, name), flush=True)


if __name__ == "__main__":
    main()
