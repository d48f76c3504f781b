"""What the demo writes, computed from its rows one after the other: scripts/worked_rows.py compares it.

The rows are those of bench/demo_files.py. There have to be so many that each of the sky's 34 chunks holds some; the band of the
third query touches the 32 of the two middle stripes. No chunk is computed here.
"""
import bisect
import concurrent.futures
import os
import sys

sys.path.insert(0, os.path.join(os.path.dirname(os.path.abspath(__file__)), "..", "bench"))
import demo_files  # noqa: E402  (it is in the other folder)

# a demo, and the largest one; how many of its rows are computed at a time, and how many have pairs that are looked for
COUNT, SEED = 20000, 7
LARGEST, PART, FIRST = 4194304, 1 << 18, 1000
# the square of 65,536, the radius of the join
NEAR, RADIUS = 4294967296, 65536
LIMIT = 5


def four_decimals(total, count):
    """The quotient of two numbers not below 0 to the nearest ten-thousandth, halves up."""
    scaled = (20000 * total + count) // (2 * count)
    return f"{scaled // 10000}.{scaled % 10000:04}"


def block(number, heading, lines, chunks):
    return "".join(f"{line}\n" for line in [f"query {number}", heading, *lines, f"{len(lines)} rows, {chunks} chunks"])


def pairs(rows, first):
    """The ids of each two rows within the radius, the lower first, if the lower one is one of the first rows."""
    rising = sorted(first, key=lambda row: row[3])
    heights = [row[3] for row in rising]
    for row in rows:
        start = bisect.bisect_left(heights, row[3] - RADIUS)
        for other in rising[start : bisect.bisect_right(heights, row[3] + RADIUS)]:
            if other[0] < row[0] and sum((a - b) ** 2 for a, b in zip(row[1:4], other[1:4])) <= NEAR:
                yield other[0], row[0]


class Summary:
    """What the four queries have to know of a list of rows, in which each kind has a row that isn't below the equator."""

    def __init__(self, rows, first):
        self.count, self.total = len(rows), sum(row[4] for row in rows)
        self.low, self.high = (end(row[3] for row in rows) for end in (min, max))
        fluxes = [[row[4] for row in rows if row[5] == kind and row[3] >= 0] for kind in range(8)]
        self.kinds = [(len(of_kind), max(of_kind)) for of_kind in fluxes]
        self.band = sorted((-row[4], row[0]) for row in rows if -1000000 <= row[3] <= 1000000)[:LIMIT]
        self.pairs = sorted(pairs(rows, first))[:LIMIT]

    def add(self, other):
        """Adds what is to be known of further rows."""
        self.count, self.total = self.count + other.count, self.total + other.total
        self.low, self.high = min(self.low, other.low), max(self.high, other.high)
        self.kinds = [(a + b, max(most, more)) for (a, most), (b, more) in zip(self.kinds, other.kinds)]
        self.band = sorted(self.band + other.band)[:LIMIT]
        self.pairs = sorted(self.pairs + other.pairs)[:LIMIT]

    def transcript(self):
        """The four blocks of the demo."""
        all_rows = f"{self.count},{self.total},{four_decimals(self.total, self.count)},{self.low},{self.high}"
        kinds = [f"{kind},{count},{most}" for kind, (count, most) in enumerate(self.kinds)]
        return (
            block(1, "COUNT(*),SUM(flux),AVG(flux),MIN(z),MAX(z)", [all_rows], 34)
            + block(2, "kind,COUNT(*),MAX(flux)", kinds, 34)
            + block(3, "objectId,flux", [f"{number},{-flux}" for flux, number in self.band], 32)
            + block(4, "a.objectId,b.objectId", [f"{a},{b}" for a, b in self.pairs], 34)
        )


def transcript():
    """What the demo of 20,000 objects writes."""
    rows = list(demo_files.rows(COUNT, SEED))
    return Summary(rows, rows).transcript()


def part_from(start):
    """What is to be known of a part of the rows of the largest demo."""
    return Summary(list(demo_files.rows(PART, SEED, start)), demo_files.rows(FIRST, SEED))


def largest():
    """What the demo of as many objects as there may be writes. All processors compute it, part by part."""
    with concurrent.futures.ProcessPoolExecutor() as pool:
        whole, *others = pool.map(part_from, range(0, LARGEST, PART))
    for other in others:
        whole.add(other)
    # all pairs that are before one of these have a first row, too
    assert len(whole.pairs) == LIMIT
    return whole.transcript()
