"""A sky of three stripes and a few hundred rows on and beside the sides and the bounds of its parts, and what is to be written of
them: scripts/worked_rows.py runs the program over both.

What is written is found the dull way: each row is tested against the sides and the bounds of each chunk, which are here as
numbers, and each row against each other for pairs. No division finds a wedge, and no list of near rows is kept.
"""
import math

# stripes of 6, 1 and 8 fine wedges, and of 3, 2 and 2 substripes
SKY = """version 2
stripe -268435472 3 2 3 16777216
stripe -50000000 1 1 2 3000000
stripe 20000000 4 2 2 16777216
"""
# where the 6 fine wedges of the first stripe begin and the last ends, and then the 8 of the last stripe
SIDES = [(6, 0), (4, 6), (-4, 6), (-6, 0), (-4, -6), (4, -6), (6, 0)]
SIDES += [(8, 0), (8, 8), (0, 8), (-8, 8), (-8, 0), (-8, -8), (0, -8), (8, -8), (8, 0)]
# where the substripes begin and the last ends
BOUNDS = [-268435472, -195623648, -122811824, -50000000, -15000000, 20000000, 144217736, 268435473]
# of each chunk its height, its sides if it has any, whether the axis is in it, and its radius
CHUNKS = [(-268435472, -50000000, (SIDES[k], SIDES[k + 2]), k == 0, 16777216) for k in (0, 2, 4)]
CHUNKS += [(-50000000, 20000000, None, True, 3000000)]
CHUNKS += [(20000000, 268435473, (SIDES[k], SIDES[k + 2]), k == 7, 16777216) for k in (7, 9, 11, 13)]
# how far from a bound and from a side positions are drawn
OFF = [-16777217, -16777216, -3000001, -3000000, -1, 0, 1, 2999999, 3000000, 16777215, 16777216, 40000000]
LEAST, MOST = 2**28 - 16, 2**28 + 16


def drawn():
    """The admissible rows among 400, as (id, x, y, z)."""
    seed, rows = 1, []

    def draw(things):
        nonlocal seed
        seed = seed * 48271 % 2147483647
        return things[seed % len(things)]

    for number in range(400):
        z = draw(BOUNDS) + draw(OFF)
        a, b = draw(SIDES)
        flat = max(0, 2**56 - z * z)
        x = math.copysign(1, a) * math.isqrt(flat // (a * a + b * b) * a * a)
        x = int(x) + draw(OFF)
        y = int(math.copysign(math.isqrt(max(0, flat - x * x)), b))
        if LEAST * LEAST <= x * x + y * y + z * z <= MOST * MOST:
            rows.append((number, x, y, z))
    return rows


ROWS = drawn()
CSV = "objectId,x,y,z\n" + "".join(f"{i},{x},{y},{z}\n" for i, x, y, z in ROWS)


def past(way, row):
    """The plane product of a direction and a row's position: 0 or more to the left of it."""
    return way[0] * row[2] - way[1] * row[1]


def is_by(way, radius, row):
    """Whether the row is no farther from the direction's line than the radius."""
    return past(way, row) ** 2 <= (way[0] ** 2 + way[1] ** 2) * radius**2


def holds(chunk, row):
    low, end, sides, axis, _ = chunk
    if not low <= row[3] < end:
        return False
    if sides is None:
        return True
    if row[1] == row[2] == 0:
        return axis
    return past(sides[0], row) >= 0 > past(sides[1], row)


def is_near(chunk, row):
    low, end, sides, _, radius = chunk
    if not low - radius <= row[3] < end + radius:
        return False
    if sides is None:
        return True
    return (past(sides[0], row) >= 0 or is_by(sides[0], radius, row)) and (
        past(sides[1], row) < 0 or is_by(sides[1], radius, row)
    )


def report():
    """The report of the rows of each chunk and of its overlap."""
    lines = []
    for number, chunk in enumerate(CHUNKS):
        own = sum(holds(chunk, row) for row in ROWS)
        beside = sum(is_near(chunk, row) and not holds(chunk, row) for row in ROWS)
        if own:
            lines.append(f"chunk {number}: {own} rows, {beside} overlap\n")
    return f"{len(ROWS)} rows, {len(lines)} of 8 chunks\n" + "".join(lines)


def chord(a, b):
    return sum((p - q) ** 2 for p, q in zip(a[1:], b[1:]))


def pairs(radius, low, high):
    """A query for the close pairs whose first row has its height between two bounds, and the lines of its block."""
    line = f"SELECT a.objectId,b.objectId FROM Object a,Object b WHERE chord2(a,b)<={radius**2} AND area_band({low},{high})"
    first = [row for row in ROWS if low <= row[3] <= high]
    found = [f"{a[0]},{b[0]}" for a in first for b in ROWS if chord(a, b) <= radius**2]
    # those that hold a row and have a height between the bounds
    chunks = sum(chunk[0] <= high and low < chunk[1] and any(holds(chunk, row) for row in ROWS) for chunk in CHUNKS)
    return line, ["a.objectId,b.objectId", *found, f"{len(found)} rows, {chunks} chunks"]


# all rows, as far as the least of the overlaps reaches, and then the first stripe and the last, which reach further
QUERIES = [
    pairs(3000000, -268435472, 268435472),
    pairs(16777216, -268435472, -50000001),
    pairs(16777216, 20000000, 268435472),
]
