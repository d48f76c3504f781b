"""Where rows lie in the parts of a sky plan: chunk and subchunk of each, and which rows are near a chunk or a subchunk.

Whole numbers throughout, as docs/FORMATS.md has them:

    partition = Partition.load(catalogue.sky_path)
    chunk, sub = partition.place(x, y, z)           # arrays of int64
    for number, own, overlap in partition.near_chunks(chunk, x, y, z):
        ...                                         # places of the chunk's rows, and of those near it
"""
import math
from dataclasses import dataclass, replace

import numpy as np

from skyq_lib.errors import SkyqError
from skyq_lib.grid import Z_LEAST, Z_MOST


@dataclass
class Stripe:
    """A stripe: from z_low up to and without z_end; `first` is the number of its first chunk."""
    z_low: int
    z_end: int
    chunks: int
    columns: int
    rows: int
    overlap: int
    first: int

    @property
    def fine(self):
        """The number of columns of subchunks all round."""
        return self.chunks * self.columns

    def row_begins(self):
        """Where the rows of subchunks begin, and the end of the last."""
        return [self.z_low + t * (self.z_end - self.z_low) // self.rows for t in range(self.rows + 1)]


@dataclass
class Region:
    """Heights from low to high, both within, and the two directions between which it lies, or None all round."""
    low: int
    high: int
    sides: tuple | None

    def is_near(self, r, x, y, z):
        """Which positions are in it or near it, as a mask: within r of its heights and of its sides' lines."""
        found = (z >= self.low - r) & (z <= self.high + r)
        if self.sides:
            for (dx, dy), is_first in zip(self.sides, (True, False)):
                past, reach = dx * y - dy * x, math.isqrt((dx * dx + dy * dy) * r * r)
                found &= past >= -reach if is_first else past <= reach
        return found


def heading(count, k):
    """The direction at which wedge k of a count of wedges begins: 8k steps along the edge of a square from (count, 0)."""
    n, s = count, 8 * (k % count)
    if s < n:
        return n, s
    if s < 3 * n:
        return 2 * n - s, n
    if s < 5 * n:
        return -n, 4 * n - s
    if s < 7 * n:
        return s - 6 * n, -n
    return n, s - 8 * n


def wedge(count, x, y):
    """The wedge, of a count of wedges, that holds each position; on the axis 0.

    Steps along the square's edge are 8 * count in all; a position's are num / den, a whole number rounded down.
    """
    if count == 1:
        return np.zeros(len(x), "i8")
    n, across, up = count, np.abs(x), np.abs(y)
    right, left = (x > 0) & (up <= x), (x < 0) & (up <= -x)
    top, bottom = (y > 0) & ~right & ~left, (y < 0) & ~right & ~left
    steps = [n * y, 8 * n * x + n * y, 2 * n * y - n * x, -4 * n * x - n * y, -6 * n * y + n * x]
    num = np.select([right & (y >= 0), right, top, left, bottom], steps, 0)
    den = np.select([right | left, top | bottom], [across, up], 1)
    return num // (8 * den)


class Partition:
    """The parts of a sky plan."""

    def __init__(self, stripes):
        self.stripes = stripes
        self.firsts = [stripe.first for stripe in stripes]
        self.lows = [stripe.z_low for stripe in stripes]

    @property
    def chunks(self):
        """The number of chunks."""
        return self.stripes[-1].first + self.stripes[-1].chunks

    @staticmethod
    def of_text(text):
        """The parts of a sky plan's text, in either of its forms."""
        lines = [line.split() for line in text.splitlines() if line.strip() and not line.startswith("#")]
        has_own = lines[0] == ["version", "2"]
        found, first = [], 0
        for line in lines[1:]:
            numbers = [int(word) for word in line[1:]]
            overlap = numbers[4] if has_own else int(lines[0][1])
            found.append(Stripe(numbers[0], Z_MOST + 1, *numbers[1:4], overlap, first))
            first += numbers[1]
        for below, above in zip(found, found[1:]):
            below.z_end = above.z_low
        return Partition(found)

    @staticmethod
    def load(path):
        """The parts of a sky plan's file."""
        with open(path, encoding="ascii") as file:
            text = file.read()
        try:
            return Partition.of_text(text)
        except (ValueError, IndexError, TypeError):
            raise SkyqError("is no sky plan", path) from None

    def place(self, x, y, z):
        """The chunk and the subchunk of each position."""
        which = np.searchsorted(self.lows, z, side="right") - 1
        chunk, sub = np.zeros(len(x), "i8"), np.zeros(len(x), "i8")
        for number, stripe in enumerate(self.stripes):
            at = np.flatnonzero(which == number)
            fine = wedge(stripe.fine, x[at], y[at])
            row = np.searchsorted(stripe.row_begins(), z[at], side="right") - 1
            chunk[at] = stripe.first + fine // stripe.columns
            sub[at] = row * stripe.columns + fine % stripe.columns
        return chunk, sub

    def stripe_of(self, chunk):
        return self.stripes[int(np.searchsorted(self.firsts, chunk, side="right")) - 1]

    def region(self, chunk):
        """The Region of a chunk."""
        stripe = self.stripe_of(chunk)
        k = chunk - stripe.first
        sides = None if stripe.chunks == 1 else (heading(stripe.chunks, k), heading(stripe.chunks, k + 1))
        return Region(stripe.z_low, stripe.z_end - 1, sides)

    def sub_region(self, chunk, sub):
        """The Region of a subchunk."""
        stripe = self.stripe_of(chunk)
        row, column = divmod(sub, stripe.columns)
        begins, fine = stripe.row_begins(), (chunk - stripe.first) * stripe.columns + column
        sides = None if stripe.fine == 1 else (heading(stripe.fine, fine), heading(stripe.fine, fine + 1))
        return Region(begins[row], begins[row + 1] - 1, sides)

    # -- near rows

    def near_chunks(self, chunk, x, y, z):
        """For each chunk that holds rows: its number, the places of its rows, and those of its overlap, both ascending."""
        by_chunk, by_z = np.argsort(chunk, kind="stable"), np.argsort(z, kind="stable")
        owners, heights = chunk[by_chunk], z[by_z]
        for stripe in self.stripes:
            first, last = np.searchsorted(owners, [stripe.first, stripe.first + stripe.chunks])
            if first == last:
                continue
            low, high = np.searchsorted(heights, [stripe.z_low - stripe.overlap, stripe.z_end + stripe.overlap])
            band = Band(stripe, by_z[low:high], x, y)
            for number in np.unique(owners[first:last]).tolist():
                a, b = np.searchsorted(owners, [number, number + 1])
                region, at = self.region(number), band.candidates(number)
                at = at[region.is_near(stripe.overlap, x[at], y[at], z[at]) & (chunk[at] != number)]
                yield number, by_chunk[a:b], np.sort(at)

    def near_subs(self, chunk, x, y, z):
        """Which positions are in or near which subchunks of a chunk: two arrays, of places and of subchunks."""
        stripe = self.stripe_of(chunk)
        # a subchunk is a row and a column, and a position is near it if it is near both
        across = np.stack([replace(self.sub_region(chunk, j), low=Z_LEAST, high=Z_MOST).is_near(stripe.overlap, x, y, z) for j in range(stripe.columns)])
        places, subs = [], []
        for row in range(stripe.rows):
            region = replace(self.sub_region(chunk, row * stripe.columns), sides=None)
            at = np.flatnonzero(region.is_near(stripe.overlap, x, y, z))
            column, which = np.nonzero(across[:, at])
            places.append(at[which])
            subs.append(row * stripe.columns + column)
        return np.concatenate(places), np.concatenate(subs)


class Band:
    """The rows at the heights of a stripe, with its overlap, by their angle: so that few are tested for each chunk."""

    def __init__(self, stripe, at, x, y):
        self.stripe = stripe
        angle = np.arctan2(y[at], x[at])
        order = np.argsort(angle)
        self.at, self.angle = at[order], angle[order]
        self.radius = math.sqrt(float((x[at].astype("f8") ** 2 + y[at].astype("f8") ** 2).min(initial=np.inf)))

    def candidates(self, chunk):
        """The places of rows among which all are that are near a chunk.

        A row is near if it is within reach of the wedge between two directions, where reach is the angle of the overlap at
        the row's distance from the axis; and, as nearness is told by half planes, opposite to a wedge narrower than that twice.
        """
        stripe, k = self.stripe, chunk - self.stripe.first
        if stripe.chunks == 1 or not stripe.overlap < self.radius:
            return self.at
        reach = math.asin(stripe.overlap / self.radius) + 1e-9
        low, high = (math.atan2(dy, dx) for dx, dy in (heading(stripe.chunks, k), heading(stripe.chunks, k + 1)))
        width = (high - low) % (2 * math.pi)
        if width <= 2 * reach or width + 2 * reach >= 2 * math.pi:
            return self.at
        low, found = low - reach, []
        for turn in (-2 * math.pi, 0.0, 2 * math.pi):
            a, b = np.searchsorted(self.angle, [low + turn, low + turn + width + 2 * reach])
            found.append(self.at[a:b])
        return np.concatenate(found)
