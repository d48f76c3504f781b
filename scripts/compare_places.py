#!/usr/bin/env python3
"""Compares the places that the built program finds with those of a plain test of every region.

    scripts/compare_places.py FOLDER [--program FILE] [--positions N] [--seed SEED]

For each of ten skies it draws N positions (10,000) on and beside sides, borders of stripes and substripes, the axis and
the poles, and at exactly the overlap radius of a side or a border. The program `judge` writes the chunk of each, its
subchunk and the other chunks that it is near. Here the same is found from the text of the sky, in whole numbers: every
chunk is tested, and every row and column of the one that holds the position, by heights and by the half planes of a table
of directions. No division finds a wedge or a row.

FILE is the built program, by default crates/judge/out/judge, where `rt run` in its crate leaves it. The text `sky` is
written in FOLDER, which is made where it isn't there. It prints a line for each sky, and before
it the first lines that differ. The status is 0 where none differs, and 1 else.
"""
import argparse
import functools
import itertools
import math
import os
import random
import subprocess
import sys

HERE = os.path.dirname(os.path.abspath(__file__))
RADIUS = 1 << 28
# the length of a position is within these
LEAST, MOST = RADIUS - 16, RADIUS + 16
BOTTOM, END = -MOST, MOST + 1
# how many lines that differ are printed for a sky
SHOWN = 5


def even(chunks, columns, rows, stripes, overlap):
    """The text of a sky of stripes of one height, each with as many chunks."""
    lows = [BOTTOM + i * ((END - BOTTOM) // stripes) for i in range(stripes)]
    return f"overlap {overlap}\n" + "".join(f"stripe {low} {chunks} {columns} {rows}\n" for low in lows)


# a stripe of one chunk between two of many, stripes no higher than their overlap, and overlaps of several sizes
UNEVEN = """version 2
stripe -268435472 64 2 3 300000
stripe -268000000 1 3 2 16777216
stripe -200000000 5 1 1 16777216
stripe -100000000 3 2 64 2000000
stripe -20000000 4 1 1 5000
stripe -19999936 1024 1 1 0
stripe 30000000 1 1 1 4000000
stripe 200000000 7 1 2 16777216
stripe 268435000 300 1 1 1000000
"""
SKIES = [
    even(1, 3, 4, 64, 5),
    even(3, 1, 1, 64, 0),
    even(4, 2, 2, 64, 1000),
    even(5, 7, 3, 64, 65536),
    even(7, 64, 64, 64, 3),
    even(16, 8, 8, 64, 1000),
    even(1023, 3, 5, 16, 65536),
    even(1024, 64, 2, 16, 1),
    even(64, 2, 2, 4, 1 << 24),
    UNEVEN,
]


def heading(n, k):
    """Where wedge k of n begins: the point 8k steps along the square of half side n."""
    s = 8 * k
    if s < n:
        return n, s
    if s < 3 * n:
        return 2 * n - s, n
    if s < 5 * n:
        return -n, 4 * n - s
    if s < 7 * n:
        return s - 6 * n, -n
    return n, s - 8 * n


@functools.cache
def sides(n):
    """The table of directions of n wedges: where each begins, and where the last one ends."""
    return [heading(n, k) for k in range(n + 1)]


@functools.cache
def whole_sides(n):
    """Those of a whole length: there are positions at exactly a radius from their lines."""
    return [d for d in sides(n) if math.isqrt(d[0] ** 2 + d[1] ** 2) ** 2 == d[0] ** 2 + d[1] ** 2]


def past(d, p):
    """The plane product of a direction and a position."""
    return d[0] * p[1] - d[1] * p[0]


def is_admissible(p):
    return LEAST**2 <= p[0] ** 2 + p[1] ** 2 + p[2] ** 2 <= MOST**2


def holding(n, start, end, p):
    """The wedges of n, from one up to and without another, that hold the position: it is at or past their first side and
    short of their second. The axis is in wedge 0, and a wedge that goes all round holds everything."""
    if n == 1:
        return [0]
    if p[0] == 0 and p[1] == 0:
        return [0] if start == 0 else []
    products = [past(d, p) for d in sides(n)[start : end + 1]]
    return [start + k for k in range(end - start) if products[k] >= 0 and products[k + 1] < 0]


def near(n, radius, p):
    """The wedges of n that the position is near: past or near their first side, and short of or near their second."""
    if n == 1:
        return [0]
    products = [past(d, p) for d in sides(n)]
    is_by = [
        product * product <= (d[0] * d[0] + d[1] * d[1]) * radius * radius for d, product in zip(sides(n), products)
    ]
    return [k for k in range(n) if (products[k] >= 0 or is_by[k]) and (products[k + 1] < 0 or is_by[k + 1])]


class Stripe:
    """A stripe from its lowest z up to and without its end; its first chunk has the number `first`."""

    def __init__(self, numbers, end, first):
        self.low, self.chunks, self.columns, self.rows, self.overlap = numbers
        self.end, self.first = end, first
        self.fine = self.chunks * self.columns
        self.row_starts = [self.low + t * (end - self.low) // self.rows for t in range(self.rows + 1)]


class Sky:
    """A sky plan, read from its text."""

    def __init__(self, text):
        self.text = text
        head, *lines = text.splitlines()
        common = [] if head == "version 2" else [int(head.split()[1])]
        numbers = [[int(word) for word in line.split()[1:]] + common for line in lines]
        ends = [stripe[0] for stripe in numbers[1:]] + [END]
        self.stripes, self.count = [], 0
        for stripe, end in zip(numbers, ends):
            self.stripes.append(Stripe(stripe, end, self.count))
            self.count += stripe[1]

    def own(self, p):
        """The stripe and the wedge of the chunk that holds the position, by testing each."""
        return only(
            (stripe, wedge)
            for stripe in self.stripes
            if stripe.low <= p[2] < stripe.end
            for wedge in holding(stripe.chunks, 0, stripe.chunks, p)
        )

    def near(self, p):
        """The chunks whose near region holds the position, by testing each."""
        return [
            stripe.first + wedge
            for stripe in self.stripes
            if stripe.low - stripe.overlap <= p[2] <= stripe.end - 1 + stripe.overlap
            for wedge in near(stripe.chunks, stripe.overlap, p)
        ]

    def place(self, p):
        """The chunk that holds the position, its subchunk that does, and the other chunks that it is near."""
        stripe, wedge = self.own(p)
        chunk = stripe.first + wedge
        return chunk, sub(stripe, wedge, p), [other for other in self.near(p) if other != chunk]


def sub(stripe, wedge, p):
    """The subchunk that holds the position, by testing each row and each column of the chunk."""
    first = wedge * stripe.columns
    return only(
        row * stripe.columns + fine - first
        for row in range(stripe.rows)
        if stripe.row_starts[row] <= p[2] < stripe.row_starts[row + 1]
        for fine in holding(stripe.fine, first, first + stripe.columns, p)
    )


def only(found):
    found = list(found)
    assert len(found) == 1, found
    return found[0]


def at_height(d, z, right, up):
    """The position of this height in this direction, a few units aside."""
    flat, length = max(0, RADIUS * RADIUS - z * z), d[0] ** 2 + d[1] ** 2
    x, y = (math.isqrt(flat * part * part // length) for part in d)
    return (x if d[0] >= 0 else -x) + right, (y if d[1] >= 0 else -y) + up, z


def by_line(draw, d, radius, z):
    """A position of about this height, on either side of the axis, that is on the line of a direction, next to it, or as far
    from it as the radius: exactly, where its steps allow that, and else the last within and the first beyond."""
    step = math.gcd(*d)
    a, b = d[0] // step, d[1] // step
    reach = math.isqrt((a * a + b * b) * radius * radius)
    product = draw.choice((-1, 1)) * draw.choice((0, 0, 1, reach, reach, reach + 1))
    # a position with this product, and from there whole steps of the direction
    y = product * pow(a, -1, abs(b)) % abs(b) if b else product * a
    x = (a * y - product) // b if b else 0
    flat = max(0, RADIUS * RADIUS - z * z - radius * radius)
    steps = draw.choice((-1, 1)) * math.isqrt(flat // (a * a + b * b)) - (a * x + b * y) // (a * a + b * b)
    x, y = x + steps * a, y + steps * b
    high = math.isqrt(max(0, RADIUS * RADIUS - x * x - y * y))
    return x, y, high if z > 0 else -high


def beside_axis(draw, radius):
    """A position that is about as far from the axis as the radius, or nearer."""
    x, y = draw.randint(-radius - 2, radius + 2), draw.randint(-radius - 2, radius + 2)
    return x, y, draw.choice((-1, 1)) * math.isqrt(RADIUS * RADIUS - x * x - y * y)


def height(draw, sky, stripe):
    """A height at a border of the stripe or of a substripe, on it, beside it or as far as some overlap radius; or any."""
    if draw.random() < 0.15:
        return draw.randint(-RADIUS, RADIUS)
    start = draw.choice(stripe.row_starts) if draw.random() < 0.5 else stripe.low
    radius = draw.choice((stripe, draw.choice(sky.stripes))).overlap
    return start + draw.choice((-1, 0, 1, -radius - 1, -radius, radius - 1, radius))


def position(draw, sky):
    """An admissible position on or beside a side, a border, the axis or a pole."""
    while True:
        stripe = draw.choice(sky.stripes)
        n = stripe.chunks if draw.random() < 0.6 else stripe.fine
        d = draw.choice(sides(n) if draw.random() < 0.7 else whole_sides(n))
        z = height(draw, sky, stripe)
        kind = draw.random()
        if kind < 0.02:
            p = (0, 0, draw.choice((-1, 1)) * draw.randint(LEAST, MOST))
        elif kind < 0.1:
            p = beside_axis(draw, draw.choice((0, stripe.overlap)))
        elif kind < 0.55:
            p = by_line(draw, d, stripe.overlap, z)
        else:
            p = at_height(d, z, draw.randint(-3, 3), draw.randint(-3, 3))
        if is_admissible(p):
            return p


def told(program, folder, sky, positions):
    """The lines that the program writes for the positions."""
    with open(os.path.join(folder, "sky"), "w") as file:
        file.write(sky.text)
    lines = "judge place sky\n" + "".join(f"{x} {y} {z}\n" for x, y, z in positions)
    ended = subprocess.run([program], cwd=folder, input=lines, capture_output=True, text=True, check=True)
    return ended.stdout.splitlines()


def compare(program, folder, sky, positions):
    """How many positions have another line than is found here."""
    others, differing = 0, 0
    for p, line in itertools.zip_longest(positions, told(program, folder, sky, positions)):
        wanted = None
        if p is not None:
            chunk, subchunk, chunks = sky.place(p)
            wanted = " ".join(map(str, ["chunk", chunk, "sub", subchunk, "near", *chunks]))
            others += len(chunks)
        if line != wanted:
            differing += 1
            if differing <= SHOWN:
                print(f"{p}: {line}\n  wanted: {wanted}")
    print(
        f"{sky.count} chunks in {len(sky.stripes)} stripes: {len(positions)} positions, near {others} other chunks in all,"
        f" {differing} differ",
        flush=True,
    )
    return differing


def main():
    parser = argparse.ArgumentParser(description=__doc__, formatter_class=argparse.RawDescriptionHelpFormatter)
    parser.add_argument("folder")
    parser.add_argument("--program", default=os.path.join(HERE, "..", "crates", "judge", "out", "judge"))
    parser.add_argument("--positions", type=int, default=10_000)
    parser.add_argument("--seed", type=int, default=1)
    words = parser.parse_args()
    draw = random.Random(words.seed)
    program = os.path.abspath(words.program)
    os.makedirs(words.folder, exist_ok=True)
    differing = 0
    for sky in map(Sky, SKIES):
        differing += compare(program, words.folder, sky, [position(draw, sky) for _ in range(words.positions)])
    return 1 if differing else 0


if __name__ == "__main__":
    sys.exit(main())
