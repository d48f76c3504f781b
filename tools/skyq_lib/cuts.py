"""Where the sky is cut for a catalogue's rows: the stripes, and each stripe's chunks and subchunks.

Chunks go round a whole stripe, all of one width, so stripes have to follow the rows. The area that holds rows gives the
side of a chunk of the wanted size. A range of declinations with rows is cut into stripes of about that height, one
without rows is one stripe. A stripe has as many chunks as its own rows ask for, at the poles too. Where a field is so
dense that its chunks would have to be much narrower than high, its stripe is halved, and again. Subchunks are near
square. No part is thinner than eight overlaps, so that few rows are held twice.
"""
import dataclasses
import math

import numpy as np

from skyq_lib.grid import Z_LEAST, Z_MOST, height

MOST_STRIPES, MOST_CHUNKS, MOST_CHUNKS_OF_STRIPE, MOST_PARTS = 256, 16384, 1024, 64
LEAST_HEIGHT = 64           # of a stripe, in grid units
LEAST_OVERLAPS = 8          # a part is not thinner than so many overlaps
ENOUGH_IN_CELL = 30         # rows of a mean cell, when the area with rows is measured
FULL = 2                    # a chunk is too full above so many times the wanted rows
FLATTEST = 8                # a chunk is not narrower than its height over this


@dataclasses.dataclass
class Wanted:
    """What a plan is to reach: rows a chunk and a subchunk, and the least width of a part in degrees."""

    chunk: float
    subchunk: float
    thinnest: float


@dataclasses.dataclass
class Cut:
    """A stripe between two heights, its parts, and how many rows its fullest chunk has."""

    z_low: int
    z_high: int
    chunks: int
    columns: int
    rows: int
    fullest: int


def wedges(count):
    """The nearest allowed count of parts all round: 1, or at least 3, since a part is less than half a turn or all of it."""
    return 1 if count < 2 else max(3, count)


def area_with_rows(ra, dec):
    """The area that holds rows, in square degrees: cells are halved until a mean cell with rows has few of them."""
    side = 16.0
    while True:
        ring = np.floor((dec + 90) / side).astype("i8")
        across = np.floor(ra * np.cos(np.radians(dec)) / side).astype("i8")
        cells = len(np.unique(ring * 2**32 + across))
        if side < 1e-4 or len(ra) <= cells * ENOUGH_IN_CELL:
            return min(cells * side * side, 41253.0)
        side /= 2


def ranges_with_rows(dec, step):
    """The ranges of declination that hold rows, as (low, high), in multiples of a step."""
    used = np.unique(np.floor((dec + 90) / step).astype("i8"))
    first = np.flatnonzero(np.diff(used, prepend=-9) > 1)
    last = np.append(first[1:] - 1, len(used) - 1)
    return [(max(-90.0, used[a] * step - 90), min(90.0, (used[b] + 1) * step - 90)) for a, b in zip(first, last)] if len(used) else []


def bounds_of(dec, side):
    """Where stripes begin, in degrees: the ranges with rows, cut into steps of about a side, and what is between them."""
    bounds = []
    for low, high in ranges_with_rows(dec, side / 8):
        count = max(1, round((high - low) / side))
        bounds += [low + (high - low) * k / count for k in range(count + 1)]
    return [bound for bound in bounds if -90 < bound < 90]


def heights_of(bounds):
    """The bounds as heights of the grid, without those that would make a stripe too low."""
    found = [Z_LEAST]
    for bound in bounds:
        z = math.ceil(height(bound))
        if z - found[-1] >= LEAST_HEIGHT and Z_MOST - z >= LEAST_HEIGHT:
            found.append(z)
    return found


def declination_of(z):
    return math.degrees(math.asin(max(-1.0, min(1.0, z / height(90)))))


def filled(ra, cells):
    """The part of the cells all round that holds rows."""
    return np.count_nonzero(np.bincount((ra / 360 * cells).astype("i8"))) / cells


def fullest(ra, chunks):
    """About how many rows the fullest of so many chunks has."""
    return int(np.bincount((ra / 360 * chunks).astype("i8")).max(initial=0))


def chunks_of(ra, turn, tall, wanted):
    """How many chunks a stripe of this length and height, in degrees, has for its rows."""
    part = filled(ra, max(1, min(4096, round(turn / tall))))
    most = max(1, min(MOST_CHUNKS_OF_STRIPE, math.floor(turn / max(tall / FLATTEST, wanted.thinnest))))
    chunks = wedges(min(most, round(len(ra) / part / wanted.chunk)))
    while fullest(ra, chunks) > FULL * wanted.chunk and wedges(2 * chunks) <= most:
        chunks = wedges(2 * chunks)
    return chunks


def cut_of(z_low, z_high, ra, wanted):
    """The stripe between two heights, for the right ascensions of its rows."""
    low, high = declination_of(z_low), declination_of(z_high)
    tall = max(high - low, 1e-9)
    turn = 360 * math.cos(math.radians(0.0 if low < 0 < high else min(abs(low), abs(high))))
    if not len(ra):
        return Cut(z_low, z_high, 1, 1, 1, 0)
    chunks = chunks_of(ra, turn, tall, wanted)
    parts = max(1.0, len(ra) / filled(ra, max(8 * chunks, min(4096, round(8 * turn / tall)))) / chunks / wanted.subchunk)
    wide = turn / chunks
    columns = min(MOST_PARTS, math.floor(wide / wanted.thinnest), max(1, round(math.sqrt(parts * wide / tall))))
    columns = max(1, columns) if chunks > 1 else wedges(columns)
    rows = max(1, min(MOST_PARTS, round(parts / columns), math.floor(tall / wanted.thinnest)))
    return Cut(z_low, z_high, chunks, columns, rows, fullest(ra, chunks))


def halves(cut, ra, dec, wanted):
    """The two halves of a stripe; ra and dec are of its rows, ascending in declination."""
    middle = math.ceil(height((declination_of(cut.z_low) + declination_of(cut.z_high)) / 2))
    count = np.searchsorted(dec, declination_of(middle))
    return [cut_of(cut.z_low, middle, ra[:count], wanted), cut_of(middle, cut.z_high, ra[count:], wanted)]


def can_be_halved(cut, wanted):
    tall = declination_of(cut.z_high) - declination_of(cut.z_low)
    return cut.fullest > FULL * wanted.chunk and cut.z_high - cut.z_low > 64 * LEAST_HEIGHT and tall > 2 * wanted.thinnest


def refined(cuts, ra, dec, wanted):
    """Halves the stripes whose chunks are too full, the fullest first, as long as the limits allow it."""
    done = []
    while cuts:
        cuts.sort(key=lambda cut: cut.fullest)
        cut = cuts.pop()
        if len(cuts) + len(done) + 2 > MOST_STRIPES or not can_be_halved(cut, wanted):
            done.append(cut)
            continue
        first, last = np.searchsorted(dec, [declination_of(cut.z_low), declination_of(cut.z_high)])
        cuts += halves(cut, ra[first:last], dec[first:last], wanted)
    return sorted(done, key=lambda cut: cut.z_low)


def cuts_of(ra, dec, thinnest, rows_per_chunk, rows_per_subchunk):
    """The stripes upwards for rows at positions in degrees, as Cuts."""
    order = np.argsort(dec, kind="stable")
    ra, dec = np.asarray(ra)[order], np.asarray(dec)[order]
    area = area_with_rows(ra, dec)
    wanted = Wanted(rows_per_chunk, rows_per_subchunk, thinnest)
    while True:
        side = min(180.0, max(math.sqrt(area * wanted.chunk / max(len(ra), 1)), thinnest, 1e-3))
        lows = heights_of(bounds_of(dec, side))
        if len(lows) <= MOST_STRIPES:
            parts = np.split(ra, np.searchsorted(dec, [declination_of(z) for z in lows[1:]]))
            cuts = [cut_of(low, high, part, wanted) for low, high, part in zip(lows, [*lows[1:], Z_MOST + 1], parts)]
            cuts = refined(cuts, ra, dec, wanted)
            if sum(cut.chunks for cut in cuts) <= MOST_CHUNKS:
                return cuts
        wanted.chunk *= 1.3
