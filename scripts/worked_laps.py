"""As many chunks and queries as there may be: a row in each of 16,384 chunks, and a script of 255 queries, of which 64 run at
once, so that the scan goes over all chunks four times. scripts/worked_rows.py runs the program over them.
"""
import math

STRIPES, WEDGES, QUERIES = 16, 1024, 255
# the lowest stripe is half of the sky, and the others are 64 high but for the last
LOWS = [-268435472, *range(0, 64 * (STRIPES - 1), 64)]
SKY = "overlap 0\n" + "".join(f"stripe {low} {WEDGES} 1 1\n" for low in LOWS)
QUERY = "SELECT COUNT(*),SUM(objectId) FROM Object\n"
SCRIPT = QUERY * QUERIES


def direction(wedge):
    """A direction on the first side of a wedge: a point of the square around the origin whose half side is the number of wedges,
    each 8 steps after the last."""
    side, step = divmod(8 * wedge + WEDGES, 2 * WEDGES)
    along = step - WEDGES
    return [(WEDGES, along), (-along, WEDGES), (-WEDGES, -along), (along, -WEDGES), (WEDGES, along)][side]


def positions():
    """A position in each chunk: 10 above its lowest height (in the first stripe 10 below the equator), between its sides."""
    for low in [-20, *LOWS[1:]]:
        z = low + 10
        for wedge in range(WEDGES):
            (ax, ay), (bx, by) = direction(wedge), direction(wedge + 1)
            x, y = ax + bx, ay + by
            scale = math.sqrt((2**56 - z * z) / (x * x + y * y))
            yield round(x * scale), round(y * scale), z


CSV = "objectId,x,y,z\n" + "".join(f"{id},{x},{y},{z}\n" for id, (x, y, z) in enumerate(positions(), 1))
COUNT = STRIPES * WEDGES
# the ids are the numbers from 1 on
ANSWER = f"COUNT(*),SUM(objectId)\n{COUNT},{COUNT * (COUNT + 1) // 2}\n1 rows, {COUNT} chunks\n"
TRANSCRIPT = "".join(f"query {number}\n{ANSWER}" for number in range(1, QUERIES + 1))
