#!/usr/bin/env python3
"""Stands in for the program where a test watches the pool: its queries are words.

    slow_program.py query SKY CSV SCRIPT WORKERS

`sleep N` takes N seconds, `hold NAME` as long as no file NAME is beside CSV, `crash` ends the program with status 9, `say WORD` is answered by the length of WORD. It adds a
line to the file `log` beside CSV when it starts, `start PID`, and for each script, `script PID N` with its N queries. A
CSV that begins with `bad` is refused as the program does.
"""
import os
import sys
import time


def note(path, *words):
    with open(path, "a", encoding="utf-8") as file:
        file.write(" ".join(str(word) for word in words) + "\n")


def answer(number, query, folder):
    word, _, more = query.partition(" ")
    while word == "hold" and not os.path.exists(os.path.join(folder, more)):
        time.sleep(0.02)
    if word == "sleep":
        time.sleep(float(more))
    if word == "crash":
        print("out of memory", file=sys.stderr)
        sys.exit(9)
    if word == "refuse":
        return f"query {number}\nrefused: not a query\n"
    return f"query {number}\nlength\n{len(more)}\n1 rows, 1 chunks\n"


def main(_, sky, catalogue, script, workers):
    folder = os.path.dirname(catalogue)
    log = os.path.join(folder, "log")
    note(log, "start", os.getpid())
    with open(catalogue, encoding="utf-8") as file:
        if file.read().startswith("bad"):
            print("catalogue row 1: length", file=sys.stderr)
            sys.exit(4)
    with open(script, encoding="utf-8") as file:
        queries = file.read().splitlines()
    note(log, "script", os.getpid(), len(queries))
    sys.stdout.write("".join(answer(number, query, folder) for number, query in enumerate(queries, 1)))


if __name__ == "__main__":
    main(*sys.argv[1:])
