"""Catalogues whose ids have gaps, and lists of ids, with the rows that have them: scripts/worked_rows.py runs the program over them.

Ids of a list are searched for eight at a time, so lists have as many, one fewer and one more. Their ids are drawn from those of rows,
from the gaps between two rows, and from below and above all rows. They are in no order, and some are listed twice.
"""
import random

# one chunk holds all rows
SKY = "overlap 5\nstripe -268435472 1 1 1\n"
LENGTHS = [0, 1, 2, 3, 7, 8, 9, 31, 32, 33, 500]
LISTED = [1, 2, 7, 8, 9, 16, 17, 60]


def ids(length):
    """The ids of a catalogue's rows: 5 and each third number from there on."""
    return [5 + 3 * number for number in range(length)]


def csv(length):
    return "objectId,x,y,z\n" + "".join(f"{number},268435456,3,0\n" for number in ids(length))


def lists(length):
    """A list of each size, drawn anew for each catalogue."""
    draw = random.Random(length)
    return [[draw.randrange(-4, 3 * length + 14) for _ in range(size)] for size in LISTED]


def queries(length):
    """A query for each list, and the lines of its block. A chunk is needed only if it holds one of the ids."""
    for listed in lists(length):
        found = sorted({*listed} & {*ids(length)})
        query = f"SELECT objectId FROM Object WHERE objectId IN ({','.join(map(str, listed))})"
        yield query, ["objectId", *map(str, found), f"{len(found)} rows, {1 if found else 0} chunks"]
