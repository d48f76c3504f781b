#!/usr/bin/env python3
"""Measures how 64 queries scale with workers, over the demo's catalogue.

    bench/workers.py FOLDER [--program FILE] [--rows N] [--times N]

Writes the demo's catalogue of N rows (1,000,000) into FOLDER, once. A script of 64 queries, each with a condition of its own
over all rows, runs with 0 to 3 workers beside the thread that goes through the script; what is printed is the least of N (3)
times by the clock, beyond that of an empty script. Beside it is a loop in C (bench/scale.c, compiled into FOLDER) that
sums a column 64 times over, parted among as many threads: what the machine itself allows. Each answer is compared with the one
without workers. FILE is the built program, by default crates/qserv_cli/out/qserv_cli, where the whole check leaves it. The
status is 1 where an answer is another. Only figures of an idle machine count.
"""
import argparse
import os
import subprocess
import sys
import time

HERE = os.path.dirname(os.path.abspath(__file__))
MOST = 3


def seconds(program, folder, script, workers):
    """What the program writes for the script with this many workers, and the seconds that it took."""
    began = time.monotonic()
    words = [program, "query", "sky.txt", "catalogue.csv", script, str(workers)]
    ended = subprocess.run(words, cwd=folder, capture_output=True, text=True, check=True)
    return ended.stdout, time.monotonic() - began


def least(times, call):
    """What the calls give, which is the same each time, and the least of their seconds."""
    told, took = call()
    for _ in range(times - 1):
        again, next_took = call()
        if again != told:
            sys.exit("two runs write different answers")
        took = min(took, next_took)
    return told, took


def write_scripts(folder):
    lines = (f"SELECT COUNT(*), SUM(flux), MAX(z) FROM Object WHERE flux > {700 * k}\n" for k in range(64))
    for name, text in (("many.sql", "".join(lines)), ("none.sql", "")):
        with open(os.path.join(folder, name), "w", encoding="ascii") as file:
            file.write(text)


def loop_in_c(folder, threads):
    """Milliseconds of the loop in C."""
    program = os.path.join(folder, "scale")
    if not os.path.exists(program):
        subprocess.run(["gcc", "-O2", "-pthread", os.path.join(HERE, "scale.c"), "-o", program], check=True)
    return min(float(subprocess.run([program, str(threads)], capture_output=True, text=True, check=True).stdout)
               for _ in range(3))


def main():
    words = argparse.ArgumentParser(description=__doc__, formatter_class=argparse.RawDescriptionHelpFormatter)
    words.add_argument("folder")
    words.add_argument("--program", default=os.path.join(HERE, "..", "crates", "qserv_cli", "out", "qserv_cli"))
    words.add_argument("--rows", type=int, default=1_000_000)
    words.add_argument("--times", type=int, default=3)
    asked = words.parse_args()
    folder = os.path.abspath(asked.folder)
    if not os.path.exists(os.path.join(folder, "catalogue.csv")):
        subprocess.run([sys.executable, os.path.join(HERE, "demo_files.py"), str(asked.rows), "1", folder], check=True)
    write_scripts(folder)
    program = os.path.abspath(asked.program)
    print("| workers | ms | times as fast | the loop in C, ms | times as fast |")
    print("|---|---|---|---|---|")
    first = None
    for workers in range(MOST + 1):
        loaded = least(asked.times, lambda: seconds(program, folder, "none.sql", workers))[1]
        told, took = least(asked.times, lambda: seconds(program, folder, "many.sql", workers))
        ms, loop = 1000 * (took - loaded), loop_in_c(folder, workers + 1)
        first = first or (told, ms, loop)
        if told != first[0]:
            sys.exit(f"with {workers} workers another answer is written")
        print(f"| {workers} | {ms:.0f} | {first[1] / ms:.2f} | {loop:.0f} | {first[2] / loop:.2f} |", flush=True)


if __name__ == "__main__":
    main()
