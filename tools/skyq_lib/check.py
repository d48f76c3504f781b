"""The command check: cones, pairs and ranges of columns of the user's own catalogue, answered by the program and by numpy.

Positions are compared as degrees: those of the source table, those that ingest kept, or else those of the grid. A row may be
told otherwise where it lies within the rounding bound of a limit; where the degrees are kept the program is asked with
--exact, and none may.
"""
import decimal

import numpy as np

from skyq_lib import engine, flat, grid, query, translate
from skyq_lib.columns import Catalogue, degrees_of_rows, read_rows
from skyq_lib.errors import SkyqError, count_of
from skyq_lib.ingest import ids_of, positions
from skyq_lib.progress import Progress
from skyq_lib.tables import read_table

WIDEST = 20000.0                    # of a cone, in arcseconds
MOST_PAIRS = 5_000_000
RANGES = 10                         # of a column


def add_words(parser, command):
    """FOLDER, --source TABLE, --queries N, --seed N, --workers N."""
    add = parser.add_argument
    add("folder", metavar="FOLDER", help="a catalogue folder")
    add("--source", metavar="TABLE", help="the table that was ingested, for its own degrees")
    add("--queries", type=int, default=200, metavar="N", help="cones, 200")
    add("--seed", type=int, default=1, metavar="N", help="of the random places, 1")
    add("--workers", type=int, metavar="N", help="threads that scan, 0 to 16")


def run(words):
    """Prints what was compared and what differs; status 1 where anything does."""
    if words.queries < 1 or words.seed < 0:
        raise SkyqError("--queries is at least 1, and --seed at least 0")
    engine.judge_workers(words.workers)
    check = Check(words)
    check.cones(words.queries)
    check.pairs()
    for column in check.catalogue.columns:
        check.ranges(column)
    print("check: ok" if check.wrong == 0 else f"check: {count_of(check.wrong, 'row')} differ{'s' if check.wrong == 1 else ''}")
    return 1 if check.wrong else 0


class Check:
    def __init__(self, words):
        self.words, self.catalogue = words, Catalogue.load(words.folder)
        self.rows = read_rows(self.catalogue)
        self.ids = np.asarray(self.rows["objectId"].data)
        if len(self.ids) == 0:
            raise SkyqError("the catalogue has no rows to check", words.folder)
        self.draw, self.wrong = np.random.default_rng(words.seed), 0
        self.ra, self.dec = self.degrees()
        self.points = flat.vectors(self.ra, self.dec)
        self.is_exact = self.catalogue.has_degrees
        self.bound = 1e-6 if self.is_exact else grid.SLACK * grid.MAS_PER_UNIT / 1000 + 1e-6
        self.id = query.quoted(self.catalogue.id or "objectId")

    def degrees(self):
        """The right ascension and declination of each row, and a line that says whose."""
        if not self.words.source:
            kept = "those that ingest kept" if self.catalogue.has_degrees else "those of the grid; --source TABLE compares with the table's own"
            print(f"degrees: {kept}")
            return degrees_of_rows(self.catalogue, self.rows)
        table, cat = read_table(self.words.source), self.catalogue
        missing = [name for name in (cat.ra, cat.dec, cat.id) if name is not None and name not in table.colnames]
        if missing:
            raise SkyqError(f"has no column {missing[0]}; is it the table that was ingested?", self.words.source)
        try:
            ra, dec, places = positions(table, cat.ra, cat.dec)
            ids = ids_of(table, cat.id, places)
        except SkyqError as fault:
            raise SkyqError(fault.what, self.words.source, fault.row) from None
        order = np.argsort(ids)
        if not np.array_equal(ids[order], self.ids):
            raise SkyqError(f"has other rows than the catalogue {cat.folder}", self.words.source)
        print(f"degrees: those of {self.words.source}")
        return ra[places][order], dec[places][order]

    # -- questions

    def asked(self, texts):
        """The tables that the program gives for ADQL texts."""
        made = [translate.translate(text, self.catalogue, exact=self.is_exact) for text in texts]
        found = []
        with Progress("check", len(made)) as bar:
            for at in range(0, len(made), engine.MOST_QUERIES):
                part = made[at : at + engine.MOST_QUERIES]
                answers = engine.ask(self.words.folder, [one.sql for one in part], self.words.workers)
                found += [query.result(one, answer, self.catalogue).table for one, answer in zip(part, answers)]
                bar.step(len(part))
        return found

    def tell(self, what, rows, differ, rounded, examples):
        """Prints a line of the report, and some of the rows that differ."""
        self.wrong += differ
        print(f"{what}: {rows:,} {'row' if rows == 1 else 'rows'}, {differ} differ" + (f", {rounded} more within the rounding of positions" if rounded else ""))
        for example in examples[:5]:
            print(f"  {example}")

    def places(self, ids):
        """The places of ids among the rows; -1 of one that no row has."""
        at = np.minimum(np.searchsorted(self.ids, ids), len(self.ids) - 1)
        return np.where(self.ids[at] == ids, at, -1)

    def named(self, place):
        return "an id that no row has" if place < 0 else f"id {self.ids[place]}"

    # -- cones

    def cones(self, count):
        drawn = [self.cone() for _ in range(count)]
        shape = f"CONTAINS({query.position(self.catalogue)},CIRCLE({{!r}},{{!r}},{{!r}}))"
        texts = [f"SELECT {self.id} FROM Object WHERE 1={shape.format(ra, dec, radius / 3600)}" for ra, dec, radius in drawn]
        rows = differ = rounded = 0
        examples = []
        for (ra, dec, radius), table in zip(drawn, self.asked(texts)):
            near, apart = flat.within(self.points, flat.vectors(np.array([ra]), np.array([dec]))[0], radius)
            want, at = near[apart <= radius], self.places(np.asarray(table.columns[0]))
            rows += len(want)
            differing = np.setxor1d(want, at)
            is_near = np.isin(differing, near[np.abs(apart - radius) <= self.bound])
            differ, rounded = differ + int((~is_near).sum()), rounded + int(is_near.sum())
            examples += [f"cone {ra!r} {dec!r} {radius!r}arcsec: {self.named(place)}" for place in differing[~is_near]]
        self.tell(f"{count} cones of 1 to {WIDEST:g} arcsec", rows, differ, rounded, examples)

    def cone(self):
        """A place near a row, and a radius in arcseconds."""
        k, radius = self.draw.integers(len(self.ids)), float(10 ** self.draw.uniform(0, np.log10(WIDEST)))
        dec = float(np.clip(self.dec[k] + self.draw.normal() * radius / 3600, -90, 90))
        across = radius / 3600 / max(1e-3, np.cos(np.radians(dec)))
        return float((self.ra[k] + self.draw.normal() * across) % 360), dec, radius

    # -- pairs

    def pairs(self):
        """Pairs within some angles up to the overlap."""
        overlap, tree = self.catalogue.overlap_arcsec, flat.tree_of(self.points)
        angles = [] if overlap <= 0 else [overlap / 12, overlap / 6, overlap / 2, overlap]
        for angle, estimate in zip(angles, flat.pair_estimates(self.points, angles, self.draw)):
            if estimate > MOST_PAIRS:
                print(f"pairs within {angle:g} arcsec: left out, some {estimate:,.0f}")
                continue
            apart = f"DISTANCE({query.position(self.catalogue, 'a.')},{query.position(self.catalogue, 'b.')})<={angle / 3600!r}"
            table, = self.asked([f"SELECT a.{self.id},b.{self.id} FROM Object AS a JOIN Object AS b ON {apart} WHERE a.{self.id}<b.{self.id}"])
            self.compare_pairs(angle, flat.pairs(self.points, angle, tree), table)

    def compare_pairs(self, angle, want, table):
        first, second = (self.places(np.asarray(table.columns[k])) for k in (0, 1))
        numbers = len(self.ids)
        differing = np.setxor1d(want[:, 0] * numbers + want[:, 1], first * numbers + second)
        a, b = np.divmod(differing, numbers)
        apart = flat.arcsec_of(np.linalg.norm(self.points[a] - self.points[b], axis=1))
        is_near = np.abs(apart - angle) <= self.bound
        examples = [f"ids {self.ids[i]} and {self.ids[j]}" for i, j in zip(a[~is_near], b[~is_near])]
        self.tell(f"pairs within {angle:g} arcsec", len(want), int((~is_near).sum()), int(is_near.sum()), examples)

    # -- columns

    def ranges(self, column):
        """How many rows have a value in each of some ranges of a column, and how many have none."""
        if column.kind == "word":
            return
        whole = self.rows[column.name]
        values, mask = whole.compressed(), np.ma.getmaskarray(whole)
        limits = np.unique(np.quantile(values, np.linspace(0, 1, RANGES + 1), method="nearest")) if len(values) else np.zeros(0, "i8")
        name = query.quoted(column.source)
        texts, wanted = [f"SELECT COUNT(*) FROM Object WHERE {name} IS NULL"], [int(mask.sum())]
        for low, high in zip(limits, [*limits[1:], None]):
            below = "" if high is None else f" AND {name}<{text_of(high, column)}"
            texts.append(f"SELECT COUNT(*) FROM Object WHERE {name}>={text_of(low, column)}{below}")
            wanted.append(int(((values >= low) & (True if high is None else values < high)).sum()))
        counts = [int(table.columns[0][0]) for table in self.asked(texts)]
        examples = [f"{text}: {count}, and {want} by numpy" for text, count, want in zip(texts, counts, wanted) if count != want]
        self.tell(f"{len(texts)} counts of {column.source}", sum(wanted), sum(abs(a - b) for a, b in zip(counts, wanted)), 0, examples)


def text_of(whole, column):
    """The exact decimal of a column's whole number."""
    with decimal.localcontext() as context:
        context.prec = 80
        return format(decimal.Decimal(int(whole)) / decimal.Decimal(column.scale), "f")
