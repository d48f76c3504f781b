#!/usr/bin/env python3
"""Measures the answer to a script that comes through a pipe after the load.

    bench/pipe.py FOLDER [--program FILE] [--rows N] [--runs N] [--workers N]

FILE is the built program, by default .qserv/qserv, where ./qserv leaves it. Writes a catalogue of N rows (1,000,000) in random
order and a sky of 256 chunks into FOLDER, once. In each run the script of the program is a named pipe. It opens for writing when
the program opens it, which it does after all loading. Then a query of a small cap is written. It prints the milliseconds from that
opening to the answer, which is written at once: the least, the median and the longest of the runs (20), and of processor time.
The status is 1 if the least is above 10 ms. On a machine that is busy only the processor time says much.
"""
import os
import statistics
import subprocess
import sys
import time

import program_words
import run

AT_MOST = 10
CAP = b"SELECT objectId FROM Object WHERE area_cap(161061274,214748365,0,1000000)\n"


def used(process):
    """The processor seconds of a process that runs."""
    with open(f"/proc/{process.pid}/schedstat", encoding="ascii") as file:
        return int(file.read().split()[0]) / 1e9


def measured(words, name):
    """The wall and the processor milliseconds of one run from the opening of the pipe to the answer, and the answer."""
    pipe = os.path.join(words.folder, "pipe")
    if os.path.exists(pipe):
        os.remove(pipe)
    os.mkfifo(pipe)
    command = [words.program, "query", "sky_256.txt", name, "pipe", str(words.workers)]
    process = subprocess.Popen(command, cwd=words.folder, stdout=subprocess.PIPE)
    with open(pipe, "wb", buffering=0) as script:
        began, before = time.perf_counter(), used(process)
        script.write(CAP)
    answer = os.read(process.stdout.fileno(), 1 << 16)
    ended, last = time.perf_counter(), used(process)
    answer += process.stdout.read()
    assert process.wait() == 0 and answer.startswith(b"query 1\n"), answer
    return 1000 * (ended - began), 1000 * (last - before), answer


def main():
    words = program_words.parser(__doc__, rows=1_000_000, runs=20, workers=3).parse_args()
    os.makedirs(words.folder, exist_ok=True)
    run.write(os.path.join(words.folder, "sky_256.txt"), run.sky_text(256))
    name = run.written_catalogue(words.folder, words.rows, "random", 2)
    runs = [measured(words, name) for _ in range(words.runs)]
    assert len({answer for _, _, answer in runs}) == 1
    wall, processor = (sorted(column) for column in list(zip(*runs))[:2])
    print(f"least {wall[0]:.2f} ms, median {statistics.median(wall):.2f} ms, longest {wall[-1]:.2f} ms of {words.runs}")
    print(f"processor time: least {processor[0]:.2f} ms, longest {processor[-1]:.2f} ms")
    return 1 if wall[0] > AT_MOST else 0


if __name__ == "__main__":
    sys.exit(main())
