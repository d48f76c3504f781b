#!/usr/bin/env python3
"""Stands in for the program over small catalogues, by the repository's own scripts/flat_answers.py.

    standin.py load SKY CSV     standin.py query SKY CSV SCRIPT WORKERS     standin.py explain SKY CSV SCRIPT

It prints what the program would; `wait` and `cancel` lines are not for it.
"""
import csv
import os
import sys

sys.dont_write_bytecode = True
sys.path.insert(0, os.path.join(os.path.dirname(os.path.abspath(__file__)), "..", "..", "scripts"))
import flat_answers  # noqa: E402
import random_worlds  # noqa: E402


def main(command, sky, catalogue, *more):
    with open(catalogue, newline="", encoding="utf-8") as file:
        names, *rows = csv.reader(file)
    with open(sky, encoding="utf-8") as file:
        world = random_worlds.World(file.read(), names, sorted([int(v) if v else None for v in row] for row in rows))
    if command == "load":
        return flat_answers.report(world)
    with open(more[0], encoding="utf-8") as file:
        lines = [line for line in file.read().split("\n") if line.strip() and not line.startswith("#")]
    return (flat_answers.transcript if command == "query" else flat_answers.explanation)(world, lines)


if __name__ == "__main__":
    sys.stdout.write(main(*sys.argv[1:]))
