"""A catalogue of three chunks, and queries that count its rows by the values of one column: scripts/worked_rows.py runs the program
over them.

Where most rows of a chunk have a value of their own, and none is NULL, the rows are grouped after the scan: in a table with a
count for each number if the values are near one another, and else sorted. So there is a column for each way, and two that take
different ways in different chunks.
"""
import collections
import itertools

# rows up to -1 are in the first chunk, and rows from 64 on in the last one
SKY = "overlap 5\nstripe -268435472 1 1 1\nstripe 0 1 1 1\nstripe 64 1 1 1\n"
# the lowest row of each chunk, and how many rows the chunk has
CHUNKS = [(-40, 350), (0, 200), (64, 140)]
COLUMNS = ["objectId", "x", "y", "z", "dense", "spread", "wide", "mixed", "few"]
Row = collections.namedtuple("Row", COLUMNS)


def mixed(chunk, number):
    """Its values differ in the first chunk, are four in the second, and differ in the third, where one is NULL."""
    if chunk == 1:
        return 7 * (number % 4) - 21
    return None if chunk == 2 and number == 60 else 7 * (number - 100)


def row_of(chunk, low, number, few):
    wide = (-1) ** number * (number + 1) * 10**12
    position = (268435456, number - 90, low + number % 32)
    return Row(10**8 + 1000 * chunk + number, *position, number - 60, 5000 * number - 7, wide, mixed(chunk, number), few)


def rows():
    """The rows of each chunk, whose numbers are in no order. Each chunk has the numbers of those with fewer rows."""
    found = []
    for chunk, (low, count) in enumerate(CHUNKS):
        for turn in range(count):
            few = None if turn % 9 == 0 else turn % 5 - 2
            found.append(row_of(chunk, low, turn * 37 % count, few))
    return found


def csv():
    lines = [",".join("" if value is None else str(value) for value in row) for row in rows()]
    return "\n".join([",".join(COLUMNS), *lines]) + "\n"


# the words of an order, and whether it is by the count, and whether it descends
ORDERS = [("", False, False), (" ORDER BY {}", False, False), (" ORDER BY {} DESC", False, True)]
ORDERS += [(" ORDER BY n", True, False), (" ORDER BY n DESC", True, True)]
# conditions, and what they say of a row: all rows, a part of each chunk, fewer rows than a sample, and none
TESTS = [("", lambda row: True), (" WHERE y>=-80", lambda row: row.y >= -80)]
TESTS += [(" WHERE y<-60", lambda row: row.y < -60), (" WHERE y>9999", lambda row: False)]


def in_order(counts, by_count, down):
    """The values and their counts in an order, those that tie ascending by value. NULL is before all numbers."""
    lines = sorted(counts.items(), key=lambda line: (line[0] is not None, line[0] or 0))
    if by_count:
        lines.sort(key=lambda line: -line[1] if down else line[1])
    elif down:
        lines.reverse()
    return lines


def text(value):
    return "NULL" if value is None else str(value)


def end_of(lines):
    return f"{len(lines)} rows, {len(CHUNKS)} chunks"


def ordered(column, counts, words):
    """Queries for the values and their counts in each order, and the lines of their blocks."""
    for (order, by_count, down), limit in itertools.product(ORDERS, [None, 10]):
        lines = in_order(counts, by_count, down)[:limit]
        end = f" LIMIT {limit}" if limit else ""
        block = [f"{text(value)},{count}" for value, count in lines]
        yield f"SELECT {column},COUNT(*) AS n {words}{order.format(column)}{end}", [f"{column},n", *block, end_of(lines)]


def in_items(column, counts, words):
    """A query that counts nothing, and one with the count in two items, one of which is before the key, and the lines of their blocks."""
    lines = in_order(counts, False, False)
    yield f"SELECT {column} {words}", [column, *(text(value) for value, _ in lines), end_of(lines)]
    block = [f"{count},{'NULL' if value is None else -2 * value},{count}" for value, count in lines]
    yield f"SELECT COUNT(*),-2*{column} AS k,COUNT(*) AS n {words}", ["COUNT(*),k,n", *block, end_of(lines)]


def queries(column):
    """Queries that count the rows by a column, and the lines of their blocks."""
    found, all_rows = [], rows()
    for condition, holds in TESTS:
        counts = collections.Counter(getattr(row, column) for row in all_rows if holds(row))
        words = f"FROM Object{condition} GROUP BY {column}"
        found += [*ordered(column, counts, words), *in_items(column, counts, words)]
    return found
