#!/usr/bin/env python3
"""Writes the demo's three texts for use with `query`, or with any other program.

    bench/demo_files.py COUNT SEED FOLDER

COUNT is 0 to 4194304, SEED 1 to 2147483646. FOLDER is made where it isn't there, and gets sky.txt, catalogue.csv and
script.sql: what `qserv demo COUNT SEED 0` answers. The catalogue is computed here from the rules in docs/FORMATS.md, by
itself, so that the program's own demo can be compared with `query` over these files.
"""
import argparse
import math
import os

RADIUS, MODULUS, FACTOR = 1 << 28, 2147483647, 48271
LEAST, MOST = (RADIUS - 16) ** 2, (RADIUS + 16) ** 2
SKY = """overlap 65536
stripe -268435472 1 8 4
stripe -134217728 16 4 4
stripe 0 16 4 4
stripe 134217728 1 8 4
"""
SCRIPT = """SELECT COUNT(*),SUM(flux),AVG(flux),MIN(z),MAX(z) FROM Object
SELECT kind,COUNT(*),MAX(flux) FROM Object WHERE z>=0 GROUP BY kind
SELECT objectId,flux FROM Object WHERE area_band(-1000000,1000000) ORDER BY flux DESC LIMIT 5
SELECT a.objectId,b.objectId FROM Object a,Object b WHERE chord2(a,b)<=4294967296 AND a.objectId<b.objectId LIMIT 5
"""


def draws(seed):
    """The draws of minstd_rand from a seed."""
    while True:
        seed = seed * FACTOR % MODULUS
        yield seed


def cut(a, b):
    """The quotient cut towards zero; b is above 0."""
    return a // b if a >= 0 else -(-a // b)


def position(height, lean_x, lean_y):
    """The position that three draws give."""
    z = height % (2 * RADIUS + 1) - RADIUS
    u, v = lean_x - 1073741823, lean_y - 1073741823
    flat, length = math.isqrt(RADIUS * RADIUS - z * z), math.isqrt(u * u + v * v)
    if length:
        x, y = cut(u * flat, length), cut(v * flat, length)
        if LEAST <= x * x + y * y + z * z <= MOST:
            return x, y, z
    return RADIUS, 0, 0


def rows(count, seed, after=0):
    """The demo's rows: objectId, x, y, z, flux and kind. The given number of rows before them is skipped."""
    # a row takes five draws; those of all skipped rows are one power of the factor
    drawn = draws(seed * pow(FACTOR, 5 * after, MODULUS) % MODULUS)
    for number in range(after + 1, after + count + 1):
        at = position(next(drawn), next(drawn), next(drawn))
        yield (number, *at, next(drawn) % 100000, next(drawn) % 8)


def write(folder, name, text):
    with open(os.path.join(folder, name), "w", encoding="ascii") as file:
        file.write(text)


def write_all(count, seed, folder):
    os.makedirs(folder, exist_ok=True)
    lines = ["%d,%d,%d,%d,%d,%d\n" % row for row in rows(count, seed)]
    write(folder, "catalogue.csv", "objectId,x,y,z,flux,kind\n" + "".join(lines))
    write(folder, "sky.txt", SKY)
    write(folder, "script.sql", SCRIPT)


def main():
    parser = argparse.ArgumentParser(description=__doc__, formatter_class=argparse.RawDescriptionHelpFormatter)
    parser.add_argument("count", type=int)
    parser.add_argument("seed", type=int)
    parser.add_argument("folder")
    words = parser.parse_args()
    write_all(words.count, words.seed, words.folder)


if __name__ == "__main__":
    main()
