"""What numpy takes for each line of peers.py: its calls over columns in memory, which give arrays and write nothing but the text. Then
what it takes until the same answer is one text, its rows in the program's order.

Of two ways the faster one is here, as measured over the demo's rows by numpy 1.24. The columns are a dictionary of arrays of 64 bits,
in ascending objectId. An answer is a list, for each query, of its columns.
"""
import os

import numpy

import peers_lines

# the cells of pairs are cubes as wide as the radius of the query, and a position's number in each direction has 14 bits
CELL, BITS, LOWEST = 16, 14, 1 << 29
REACH = 1 << CELL
# rows of an answer that are written value by value
FEW = 1000


def read(path):
    names = ["objectId", "x", "y", "z", "flux", "kind"]
    text = numpy.loadtxt(path, dtype=numpy.int64, delimiter=",", skiprows=1)
    return {name: numpy.ascontiguousarray(column) for name, column in zip(names, text.T)}


def aggregates(flux):
    return [[[len(flux)], [flux.sum()], [flux.mean()], [flux.min()], [flux.max()]]]


def csv(path):
    # loadtxt of the one column takes half of what fromstring takes for the whole text
    return aggregates(numpy.loadtxt(path, dtype=numpy.int64, delimiter=",", skiprows=1, usecols=4))


def largest(keys, n):
    """The places of the first n by descending keys and ascending places: a partition, and a sort of what remains."""
    at = numpy.flatnonzero(keys >= numpy.partition(keys, len(keys) - n)[len(keys) - n])
    return at[numpy.lexsort((at, -keys[at]))][:n]


def groups(columns):
    # bincount, since the values are small; unique takes thirty times as long
    counts = numpy.bincount(columns["flux"])
    at = largest(counts, 10)
    return [[at, counts[at]]]


def listed(columns, wanted):
    """The places of the ids that there are, by searchsorted of the ascending ids."""
    ids = columns["objectId"]
    at = numpy.minimum(numpy.searchsorted(ids, wanted), len(ids) - 1)
    return at[ids[at] == wanted]


def look_ups(columns, wanted):
    # a call for each id, as each is a query
    ids, flux = columns["objectId"], columns["flux"]
    found = []
    for one in wanted:
        at = ids.searchsorted(one)
        found.append([flux[at : at + 1] if at < len(ids) and ids[at] == one else flux[:0]])
    return found


def one_list(columns, wanted):
    return [[columns["flux"][listed(columns, numpy.array(wanted))]]]


def first_10(columns):
    at = largest(columns["flux"], 10)
    return [[columns["objectId"][at], columns["flux"][at]]]


def first_100(columns):
    at = numpy.flatnonzero(columns["z"] > 0)
    at = at[largest(columns["flux"][at], 100)]
    return [[columns["objectId"][at], columns["flux"][at]]]


def rows_as_text(columns):
    # one format for all rows takes two thirds of a join of strings
    row = ",".join(["%d"] * len(columns)) + "\n"
    return (row * len(columns[0])) % tuple(numpy.stack(columns, axis=1).ravel().tolist())


def text(columns):
    at = numpy.flatnonzero(columns["flux"] < 10000)
    return rows_as_text([columns["objectId"][at], columns["flux"][at]])


def in_order(columns):
    """Pairs in ascending ids."""
    one, other = columns
    # a sort of both as one number takes less than a fifth of one by two columns
    both = numpy.sort(one << 32 | other)
    return [both >> 32, both & (1 << 32) - 1]


def answer_text(columns):
    """An answer as text: a few rows value by value, since a mean has four decimals."""
    if len(columns[0]) < FEW:
        return "".join(",".join(map(peers_lines.as_text, row)) + "\n" for row in zip(*columns))
    return rows_as_text(columns)


def scans(columns, bounds):
    flux, z, found = columns["flux"], columns["z"], []
    for bound in bounds:
        # a mask as numbers 0 and 1: the rows are neither listed nor copied
        mask = flux > bound
        found.append([[numpy.count_nonzero(mask)], [numpy.dot(flux, mask)], [numpy.where(mask, z, -LOWEST).max()]])
    return found


def pairs(columns):
    """The pairs within the reach, each once, in no order. Rows are sorted by cell; cells next to each other in z have consecutive
    numbers, so each row has five ranges of later rows: its own cell and the next one, and three cells in each of four columns of cells."""
    parts = [columns[name] + LOWEST >> CELL for name in "xyz"]
    cells = (parts[0] << BITS | parts[1]) << BITS | parts[2]
    order = numpy.argsort(cells)
    cells, ids, (x, y, z) = cells[order], columns["objectId"][order], (columns[name][order] for name in "xyz")
    places, found = numpy.arange(len(cells)), []
    for step in (0, 1, (1 << BITS) - 1, 1 << BITS, (1 << BITS) + 1):
        middle = cells + (step << BITS)
        first = numpy.searchsorted(cells, middle - 1) if step else places + 1
        count = numpy.searchsorted(cells, middle + 1, "right") - first
        a = numpy.repeat(places, count)
        b = numpy.arange(len(a)) + numpy.repeat(first - (numpy.cumsum(count) - count), count)
        near = (x[a] - x[b]) ** 2 + (y[a] - y[b]) ** 2 + (z[a] - z[b]) ** 2 <= REACH * REACH
        found.append((ids[a[near]], ids[b[near]]))
    one, other = (numpy.concatenate(side) for side in zip(*found))
    return [[numpy.minimum(one, other), numpy.maximum(one, other)]]


class Numpy:
    """The columns of both catalogues, and the call of each line."""

    def __init__(self, words):
        path, dense_path = (os.path.join(words.folder, name, "catalogue.csv") for name in ("object", "dense"))
        own, dense, bounds = read(path), read(dense_path), range(0, 64 * 700, 700)
        calls = [lambda: csv(path), lambda: groups(own), lambda: look_ups(own, peers_lines.LOOK_UPS)]
        calls += [lambda: one_list(own, peers_lines.LISTED), lambda: first_10(own), lambda: first_100(own), lambda: text(own)]
        calls += [lambda: scans(own, bounds), lambda: pairs(own), lambda: pairs(dense)]
        self.calls = dict(zip(peers_lines.LINES, calls))

    def run(self, line):
        """The answers, of pairs the lower ids, and the milliseconds."""
        found, took = peers_lines.clocked(self.calls[line])
        if line.word == "text":
            return [found.splitlines()], took
        if line.word == "pairs":
            return found[0][:1], took
        return peers_lines.texts(zip(*columns) for columns in found), took

    def run_to_text(self, line):
        """The answers, of pairs how many there are, and the milliseconds until they are text."""
        told, took = peers_lines.clocked(lambda: self.told(line))
        lines = [answer.splitlines() for answer in told]
        return [range(len(lines[0]))] if line.word == "pairs" else lines, took

    def told(self, line):
        """The text of each answer of a line."""
        found = self.calls[line]()
        if line.word == "text":
            return [found]
        return [answer_text(in_order(columns) if line.word == "pairs" else columns) for columns in found]
