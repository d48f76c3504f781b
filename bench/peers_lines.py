"""The lines of peers.py, with their right answers, computed the dull way from the flat lists."""
import collections
import time

import queries
import turns

NAMES = ["objectId", "x", "y", "z", "flux", "kind"]
LOOK_UPS, LISTED = [499 * k + 1 for k in range(200)], [997 * k + 3 for k in range(100)]
ASKED = {name: tuple(lines) for name, lines, *_ in queries.LINES + turns.LINES}
# a line of the table: its queries, how often they are in a script, the folder of its catalogue, and its word for peers.c
Line = collections.namedtuple("Line", "name queries often folder word")
LINES = [
    Line("CSV to five aggregates", (queries.ALL,), 1, "object", "csv"),
    Line("GROUP BY 100,000 values, ten largest", ASKED["GROUP BY 100,000 values, the ten largest"], 4, "object", "groups"),
    Line("200 look-ups by id", ASKED["200 look-ups by id"], 1, "object", "ids"),
    Line("one IN of 100 ids", ASKED["one list of 100 ids"], 40, "object", "list"),
    Line("ORDER BY .. LIMIT 10", ASKED["the first 10"], 32, "object", "first"),
    Line("LIMIT 100 with a condition", ASKED["the first 100, a condition"], 32, "object", "first_condition"),
    Line("a tenth of the rows as text", ASKED["a tenth of the rows as text"], 8, "object", "text"),
    Line("64 different scans", ASKED["64 scans"], 1, "object", "scans"),
    Line("near pairs", (turns.NEAR,), 1, "object", "pairs"),
    Line("dense pairs", (turns.NEAR,), 1, "dense", "pairs"),
]


def clocked(call):
    """What a call returns, and its milliseconds by the clock."""
    began = time.perf_counter()
    found = call()
    return found, 1000 * (time.perf_counter() - began)


def as_text(value):
    """A number as the program writes it: a mean has four decimals."""
    return f"{value:.4f}" if value % 1 else str(int(value))


def texts(answers):
    """The lines of each answer."""
    return [[",".join(map(as_text, row)) for row in answer] for answer in answers]


def scanned(rows, bound):
    kept = [row for row in rows if row[4] > bound]
    return [(len(kept), sum(row[4] for row in kept), max(row[3] for row in kept))]


def wanted(rows, dense):
    """For each line of the table the lines of each answer, from the flat lists; of the pairs, how many."""
    fluxes = {row[0]: row[4] for row in rows}
    north = [row for row in rows if row[3] > 0]
    answers = [
        [queries.totals(rows)],
        [queries.most_frequent(rows)],
        [[(fluxes[one],)] if one in fluxes else [] for one in LOOK_UPS],
        [[(fluxes[one],) for one in sorted(LISTED) if one in fluxes]],
        [queries.brightest(rows)],
        [[(row[0], row[4]) for row in sorted(north, key=lambda row: (-row[4], row[0]))[:100]]],
        [[(row[0], row[4]) for row in rows if row[4] < 10000]],
        [scanned(rows, 700 * k) for k in range(64)],
    ]
    told = [[[",".join(map(str, row)) for row in answer] for answer in line] for line in answers]
    return dict(zip(LINES, told + [queries.near_pairs(rows), queries.near_pairs(dense)]))


def is_right(line, told, want):
    """Whether answers are the right ones; in any order of the rows if the query has none."""
    if line.word == "pairs":
        return len(told[0]) == want
    return told == want or ("ORDER BY" not in line.queries[0] and list(map(sorted, told)) == list(map(sorted, want)))
