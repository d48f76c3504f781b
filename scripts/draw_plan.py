#!/usr/bin/env python3
"""Draws a sky plan as an SVG picture: its chunks, the subchunks of one chunk, its overlap, and where drawn rows fall.

    scripts/draw_plan.py SKY CHUNK FILE [--rows N]

SKY is a sky plan as docs/FORMATS.md describes it, with one overlap for all stripes. The picture is an equal-area map: the
direction in the plane of x and y runs to the right, z upwards. N points (900), evenly drawn over the sphere, are marked as rows
of the chunk, rows of its overlap, or other rows. FILE alone is written. The picture in docs is
`scripts/draw_plan.py docs/chunks.txt 6 docs/chunks.svg`.
"""
import argparse
import math
import random

RADIUS = 2**28
WIDTH, HEIGHT, MARGIN = 960, 400, 8


def read_plan(name):
    """The overlap and the stripes (lowest z, chunks, columns, rows) of a sky plan."""
    overlap, stripes = 0, []
    with open(name, encoding="ascii") as file:
        for words in (line.split() for line in file):
            if words and words[0] == "overlap":
                overlap = int(words[1])
            if words and words[0] == "stripe":
                stripes.append(tuple(int(word) for word in words[1:5]))
    return overlap, stripes


def heading(n, k):
    """The direction of the first side of wedge k of n, in radians from 0: a point of the square of half side n."""
    steps = 8 * (k % n)
    x, y = n, 0
    for dx, dy, most in ((0, 1, n), (-1, 0, 2 * n), (0, -1, 2 * n), (1, 0, 2 * n), (0, 1, n)):
        part = min(steps, most)
        x, y, steps = x + dx * part, y + dy * part, steps - part
    return math.atan2(y, x) % (2 * math.pi)


class Part:
    """A part of the sky: from one height up to another, and from one direction to another, or all round."""

    def __init__(self, low, high, wedges, wedge):
        self.low, self.high = low, high
        self.whole = wedges == 1
        self.first = heading(wedges, wedge)
        self.last = 2 * math.pi if wedge + 1 == wedges else heading(wedges, wedge + 1)

    def has(self, angle, z):
        return self.low <= z < self.high and (self.whole or self.first <= angle < self.last)

    def is_near(self, angle, z, reach):
        if not self.low - reach <= z <= self.high + reach:
            return False
        around = math.sqrt(max(RADIUS * RADIUS - z * z, 1))
        more = math.asin(min(1.0, reach / around))
        return self.whole or self.first - more <= angle <= self.last + more


def chunks_of(stripes):
    """The chunks of a plan in their order, each with the fine wedges and heights of its subchunks."""
    ends = [stripe[0] for stripe in stripes[1:]] + [RADIUS]
    for (low, chunks, columns, rows), high in zip(stripes, ends):
        low = max(low, -RADIUS)
        for at in range(chunks):
            fine = [heading(chunks * columns, at * columns + j) for j in range(1, columns)]
            heights = [low + (high - low) * t // rows for t in range(1, rows)]
            yield Part(low, high, chunks, at), fine, heights


def across(angle):
    return MARGIN + angle / (2 * math.pi) * (WIDTH - 2 * MARGIN)


def up(z):
    return HEIGHT - MARGIN - (z + RADIUS) / (2 * RADIUS) * (HEIGHT - 2 * MARGIN)


def line(x1, y1, x2, y2, style):
    return f'<line x1="{x1:.1f}" y1="{y1:.1f}" x2="{x2:.1f}" y2="{y2:.1f}" {style}/>'


def near_region(part, reach):
    """The near region as a polygon: its sides bend, since the reach is a length and the map's width an angle."""
    low, high = max(part.low - reach, 1 - RADIUS), min(part.high + reach, RADIUS - 1)
    heights = [low + (high - low) * i / 24 for i in range(25)]
    more = [math.asin(min(1.0, reach / math.sqrt(RADIUS * RADIUS - z * z))) for z in heights]
    left = [(across(part.first - m), up(z)) for m, z in zip(more, heights)]
    right = [(across(part.last + m), up(z)) for m, z in zip(more, heights)]
    points = " ".join(f"{x:.1f},{y:.1f}" for x, y in left + right[::-1])
    return f'<polygon points="{points}" fill="#f6c28b" fill-opacity="0.55"/>'


def marks(part, reach, count):
    """A mark for each drawn point, by whether the chunk or its overlap has it."""
    draw = random.Random(7)
    for _ in range(count):
        angle, z = draw.random() * 2 * math.pi, draw.uniform(-RADIUS, RADIUS)
        colour, size = "#b9c2cc", 1.3
        if part.has(angle, z):
            colour, size = "#1f5f99", 2.2
        elif part.is_near(angle, z, reach):
            colour, size = "#c25a00", 2.2
        yield f'<circle cx="{across(angle):.1f}" cy="{up(z):.1f}" r="{size}" fill="{colour}"/>'


def picture(overlap, stripes, chosen, count):
    border, thin = 'stroke="#5c6873" stroke-width="1"', 'stroke="#8fb3d1" stroke-width="0.6"'
    yield f'<svg xmlns="http://www.w3.org/2000/svg" viewBox="0 0 {WIDTH} {HEIGHT}" font-family="sans-serif" font-size="12">'
    yield f'<rect width="{WIDTH}" height="{HEIGHT}" fill="#ffffff"/>'
    chunks = list(chunks_of(stripes))
    part, fine, heights = chunks[chosen]
    yield near_region(part, overlap)
    left, right, top, bottom = across(part.first), across(part.last), up(part.high), up(part.low)
    yield f'<rect x="{left:.1f}" y="{top:.1f}" width="{right - left:.1f}" height="{bottom - top:.1f}" fill="#dcebf7"/>'
    for angle in fine:
        yield line(across(angle), top, across(angle), bottom, thin)
    for z in heights:
        yield line(left, up(z), right, up(z), thin)
    yield from marks(part, overlap, count)
    for number, (at, _, _) in enumerate(chunks):
        x1, x2, y1, y2 = across(at.first), across(at.last), up(at.high), up(at.low)
        if at.whole:
            x1, x2 = across(0), across(2 * math.pi)
        yield f'<rect x="{x1:.1f}" y="{y1:.1f}" width="{x2 - x1:.1f}" height="{y2 - y1:.1f}" fill="none" {border}/>'
        yield f'<text x="{x1 + 5:.1f}" y="{y1 + 15:.1f}" fill="#30363d">{number}</text>'
    yield "</svg>"


def main():
    words = argparse.ArgumentParser(description=__doc__, formatter_class=argparse.RawDescriptionHelpFormatter)
    words.add_argument("sky")
    words.add_argument("chunk", type=int)
    words.add_argument("file")
    words.add_argument("--rows", type=int, default=900)
    given = words.parse_args()
    overlap, stripes = read_plan(given.sky)
    with open(given.file, "w", encoding="ascii") as file:
        file.write("\n".join(picture(overlap, stripes, given.chunk, given.rows)) + "\n")


if __name__ == "__main__":
    main()
