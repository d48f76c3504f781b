#!/usr/bin/env python3
"""Writes a catalogue of random positions on the sphere, for measuring.

    bench/catalogue.py ROWS [--seed SEED] [--order ascending|random] [--further COUNT]

The catalogue goes to standard output: the header objectId,x,y,z and ROWS rows with the ids 1 to ROWS, whose
positions are points of the grid next to the sphere of radius 2^28. With --further there are that many extra columns,
f1, f2 and on, of whole numbers within 99,999, one in twenty of them NULL. The same words give the same bytes.
"""
import argparse
import math
import random
import sys

RADIUS = 1 << 28


def position(draw):
    """A point of the grid next to the sphere: the length differs from the radius by less than 1."""
    while True:
        x, y, z = draw.gauss(0, 1), draw.gauss(0, 1), draw.gauss(0, 1)
        length = math.sqrt(x * x + y * y + z * z)
        if length > 1e-6:
            return (round(x / length * RADIUS), round(y / length * RADIUS), round(z / length * RADIUS))


def value(draw):
    """An extra value, or an empty field."""
    return "" if draw.randrange(20) == 0 else str(draw.randint(-99_999, 99_999))


def main():
    parser = argparse.ArgumentParser(description=__doc__, formatter_class=argparse.RawDescriptionHelpFormatter)
    parser.add_argument("rows", type=int)
    parser.add_argument("--seed", type=int, default=1)
    parser.add_argument("--order", choices=["ascending", "random"], default="random")
    parser.add_argument("--further", type=int, choices=range(13), default=0, metavar="COUNT")
    words = parser.parse_args()
    draw = random.Random(words.seed)
    ids = list(range(1, words.rows + 1))
    if words.order == "random":
        draw.shuffle(ids)
    out = sys.stdout
    further = random.Random(words.seed + 1)
    out.write("objectId,x,y,z" + "".join(f",f{i + 1}" for i in range(words.further)) + "\n")
    for objectid in ids:
        x, y, z = position(draw)
        values = "".join("," + value(further) for _ in range(words.further))
        out.write(f"{objectid},{x},{y},{z}{values}\n")


if __name__ == "__main__":
    main()
