"""Catalogues at whose lengths a run of 8 or 16 rows begins, ends or is passed by one, the rows that a test of each leaves, and the first
of them in an order: scripts/worked_rows.py runs the program over them.

A test of a column is made on many rows at once, so that its last rows are others than its first. Over the longest catalogue nine of the
twelve queries for the first rows find them among candidates, the rows up to a key of a sample. Of the others by flux, in ascending
order, the key is NULL for two, and too few rows are up to it for one.
"""
import itertools

# one chunk holds all rows
SKY = "overlap 5\nstripe -268435472 1 1 1\n"
LENGTHS = [0, 1, 7, 8, 9, 15, 16, 17, 4096]


def values(number):
    """The height of a row and its flux: both go from -8 to 8 again and again, but there is no flux for the first of each 17."""
    value = number % 17 - 8
    return value, None if value == -8 else value


def csv(length):
    rows = [(number, *values(number)) for number in range(length)]
    return "objectId,x,y,z,flux\n" + "".join(f"{i},268435456,3,{z},{'' if flux is None else flux}\n" for i, z, flux in rows)


# conditions, and what they say of a row: a column of 32 bits and one of 64 compared and in a range, a value that is there, and
# a cap, of whose middle a row is 9 plus the square of its height away
TESTS = [
    ("z<3", lambda z, flux: z < 3),
    ("flux<3", lambda z, flux: flux is not None and flux < 3),
    ("z BETWEEN -7 AND 3", lambda z, flux: -7 <= z <= 3),
    ("flux BETWEEN -6 AND 3", lambda z, flux: flux is not None and -6 <= flux <= 3),
    ("flux IS NOT NULL", lambda z, flux: flux is not None),
    ("area_cap(268435456,0,0,25)", lambda z, flux: 9 + z * z <= 25),
    ("area_cap(268435456,0,0,8)", lambda z, flux: False),
]

# an item, its name and its value: one with many ties and NULL, and one that differs from row to row
KEYS = [("flux", "flux", lambda number, z, flux: flux), ("z*5000-objectId AS k", "k", lambda number, z, flux: 5000 * z - number)]
LIMITS = [32, 100, 500]


def rows_in_order(length, value, down):
    """The ids and values by the value, NULL before all numbers or after them if it descends, and rows that tie by id."""
    rows = [(number, value(number, *values(number))) for number in range(length)]
    nulls, others = [row for row in rows if row[1] is None], [row for row in rows if row[1] is not None]
    others.sort(key=lambda row: (-row[1] if down else row[1], row[0]))
    return others + nulls if down else nulls + others


def first_rows(length):
    """A query for the first rows by each key, in both directions, and the lines of its block."""
    for (item, name, value), down, limit in itertools.product(KEYS, [False, True], LIMITS):
        rows = rows_in_order(length, value, down)[:limit]
        lines = [f"{number},{'NULL' if key is None else key}" for number, key in rows]
        order = f"{name} DESC" if down else name
        query = f"SELECT objectId,{item} FROM Object ORDER BY {order} LIMIT {limit}"
        yield query, [f"objectId,{name}", *lines, f"{len(rows)} rows, {min(1, length)} chunks"]


def queries(length):
    """A query for each condition and for the first rows by each key, and the lines of its block."""
    found = list(first_rows(length))
    for condition, holds in TESTS:
        ids = [str(number) for number in range(length) if holds(*values(number))]
        end = f"{len(ids)} rows, {min(1, length)} chunks"
        found.append((f"SELECT objectId FROM Object WHERE {condition}", ["objectId", *ids, end]))
    return found
