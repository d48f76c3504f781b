"""Limits that the grid cannot tell from a row: with --exact the degrees decide, and without it some are wrong."""
import unittest
from decimal import Decimal, getcontext

import numpy as np
from astropy.table import Table

import programs
import support
from skyq_lib import areas, engine, grid, query, translate
from skyq_lib.columns import Catalogue
from skyq_lib.errors import SkyqError

IS_REAL = programs.use()
MAS = 1 / 3600e3
COUNT = 60


def separation(ra, dec, ra2, dec2):
    """Degrees between positions, by the haversine, in doubles."""
    a, d, b, e = (np.radians(np.asarray(v, "f8")) for v in (ra, dec, ra2, dec2))
    return np.degrees(2 * np.arcsin(np.sqrt(np.sin((d - e) / 2) ** 2 + np.cos(d) * np.cos(e) * np.sin((a - b) / 2) ** 2)))


class Exact(support.WithFolder):
    def setUp(self):
        super().setUp()
        rng = np.random.default_rng(3)
        self.ra = np.round(150 + rng.uniform(-0.004, 0.004, COUNT), 9)
        self.dec = np.round(2 + rng.uniform(-0.004, 0.004, COUNT), 9)
        self.ids = np.arange(1, COUNT + 1)
        Table({"id": self.ids, "ra": self.ra, "dec": self.dec, "m": self.ids % 7}).write(self.path("t.fits"))
        for name, *words in (("kept", "--degrees"), ("plain",)):
            done = support.skyq("ingest", self.path("t.fits"), self.path(name), *words)
            self.assertEqual(done.returncode, 0, done.stderr)

    def ids_of(self, texts, is_exact):
        catalogue = Catalogue.load(self.path("kept"))
        made = [translate.translate(text, catalogue, exact=is_exact) for text in texts]
        found = engine.ask(catalogue.folder, [one.sql for one in made])
        tables = [query.result(one, answer, catalogue).table for one, answer in zip(made, found)]
        return [sorted(map(tuple, table.iterrows())) for table in tables]

    def compare(self, texts, wanted):
        """With exact each answer is the wanted one; without it some are not, or this would show nothing."""
        self.assertEqual(self.ids_of(texts, True), wanted)
        self.assertNotEqual(self.ids_of(texts, False), wanted)

    def test_cones_that_end_within_a_fifth_of_a_mas_of_a_row(self):
        texts, wanted = [], []
        for k in range(COUNT):
            apart = separation(self.ra, self.dec, 150.0003, 2.0004)
            limit = float(apart[k] + (k % 2 - 0.5) * 0.2 * MAS)
            for shape, keep in (("1=", apart <= limit), ("0=", apart > limit)):
                texts.append(f"SELECT id FROM Object WHERE {shape}CONTAINS(POINT(ra,dec),CIRCLE(150.0003,2.0004,{limit!r}))")
                wanted.append([(int(n),) for n in self.ids[keep]])
        self.compare(texts, wanted)

    def test_boxes_whose_sides_are_a_tenth_of_a_mas_from_a_row(self):
        texts, wanted = [], []
        for k in range(COUNT):
            more = (k % 2 - 0.5) * 0.4 * MAS
            width, height = 2 * abs(self.ra[k] - 150) + more, 2 * abs(self.dec[(k * 7) % COUNT] - 2) - more
            keep = (np.abs(self.ra - 150) <= width / 2) & (np.abs(self.dec - 2) <= height / 2)
            for one, rows in (("1", keep), ("0", ~keep)):
                texts.append(f"SELECT id FROM Object WHERE {one}=CONTAINS(POINT(ra,dec),BOX(150,2,{width!r},{height!r}))")
                wanted.append([(int(n),) for n in self.ids[rows]])
        self.compare(texts, wanted)

    def test_conditions_that_mix_areas_and_columns(self):
        texts, wanted = [], []
        apart = separation(self.ra, self.dec, 150, 2)
        for k in range(COUNT):
            limit = float(apart[k] + (k % 2 - 0.5) * 0.2 * MAS)
            text = f"SELECT id FROM Object WHERE DISTANCE(POINT(ra,dec),POINT(150,2))<{limit!r} OR NOT (2*m<9 OR m IN (5,{k % 7}))"
            keep = (apart < limit) | ~((2 * (self.ids % 7) < 9) | np.isin(self.ids % 7, [5, k % 7]))
            texts.append(text)
            wanted.append([(int(n),) for n in self.ids[keep]])
        self.compare(texts, wanted)

    def test_pairs_that_are_within_a_fifth_of_a_mas_of_the_limit(self):
        apart = separation(self.ra[:, None], self.dec[:, None], self.ra[None, :], self.dec[None, :])
        texts, wanted = [], []
        for k in range(0, COUNT - 1, 1 if IS_REAL else 8):
            limit = float(apart[k, k + 1] + (k // 8 % 2 - 0.5) * 0.2 * MAS)
            texts.append("SELECT a.id,b.id FROM Object a,Object b WHERE a.id<b.id AND "
                         f"DISTANCE(POINT(a.ra,a.dec),POINT(b.ra,b.dec))<={limit!r}")
            a, b = np.nonzero((apart <= limit) & (self.ids[:, None] < self.ids[None, :]))
            wanted.append(sorted(zip(self.ids[a].tolist(), self.ids[b].tolist())))
        self.compare(texts, wanted)

    def test_top_cuts_after_the_degrees_decide(self):
        apart = separation(self.ra, self.dec, 150, 2)
        limit = float(apart[-1] - 0.1 * MAS)        # the grid may take the last row, which is just outside
        text = f"SELECT TOP 4 id FROM Object WHERE DISTANCE(POINT(ra,dec),POINT(150,2))<={limit!r} ORDER BY id DESC"
        want = [(int(n),) for n in self.ids[apart <= limit][-4:]]
        self.assertEqual((len(want), self.ids_of([text], True)[0]), (4, want))

    def test_the_nearest_first_where_the_grid_cannot_tell(self):
        rng = np.random.default_rng(8)
        turns, apart = rng.uniform(0, 2 * np.pi, COUNT), np.full(COUNT, 0.003) + rng.permutation(COUNT) * 0.05 * MAS
        dec = 2 + apart * np.sin(turns)
        ra = 150 + apart * np.cos(turns) / np.cos(np.radians(dec))
        Table({"id": self.ids, "ra": np.round(ra, 12), "dec": np.round(dec, 12)}).write(self.path("ring.fits"))
        self.assertEqual(support.skyq("ingest", self.path("ring.fits"), self.path("kept"), "--degrees").returncode, 0)
        order = self.ids[np.argsort(separation(np.round(ra, 12), np.round(dec, 12), 150, 2))].tolist()
        catalogue = Catalogue.load(self.path("kept"))
        for order_by, want in (("", order[:9]), (" DESC", order[::-1][:9])):
            for text in (f"SELECT TOP 9 id FROM Object ORDER BY DISTANCE(POINT(ra,dec),POINT(150,2)){order_by}",
                         f"SELECT TOP 9 id,DISTANCE(150,2,ra,dec) AS d FROM Object ORDER BY d{order_by}"):
                ask = lambda sql: engine.ask(catalogue.folder, [sql])[0]  # noqa: E731
                self.assertEqual(query.answer(catalogue, text, ask, is_exact=True).table["id"].tolist(), want)
                self.assertNotEqual(query.answer(catalogue, text, ask).table["id"].tolist(), want)
        with self.assertRaisesRegex(SkyqError, "ingest it with --degrees$"):
            translate.translate("SELECT TOP 9 id FROM Object ORDER BY DISTANCE(POINT(ra,dec),POINT(150,2))", Catalogue.load(self.path("plain")), exact=True)

    def test_without_kept_degrees_exact_says_how_to_keep_them(self):
        with self.assertRaisesRegex(SkyqError, "^--exact decides on the degrees, .* ingest it with --degrees$"):
            translate.translate("SELECT id FROM Object WHERE 1=CONTAINS(POINT(ra,dec),CIRCLE(1,2,3))", Catalogue.load(self.path("plain")), exact=True)

    def test_what_meets_no_rounding_is_left_to_the_engine(self):
        made = translate.translate("SELECT TOP 3 id FROM Object WHERE m<4", Catalogue.load(self.path("plain")), exact=True)
        self.assertEqual((made.sql, made.tests), ("SELECT objectId FROM Object WHERE m<4 LIMIT 3", []))


class Bound(unittest.TestCase):
    """The widened conditions hold for every row that the degrees give, in exact arithmetic at the border of the bound."""

    def test_a_loosened_chord_is_at_least_the_chord_and_sqrt_3(self):
        getcontext().prec = 60
        for arcsec in (0.5, 1.0, 60.0, 3600.0, 300000.0):
            chord = Decimal(grid.chord(arcsec))
            root3 = Decimal(3).sqrt()
            self.assertGreaterEqual(areas.limit("<=", arcsec, grid.SLACK), int((chord + root3) ** 2))
            self.assertLess(areas.limit(">", arcsec, grid.SLACK), max(Decimal(0), chord - root3) ** 2)


if __name__ == "__main__":
    unittest.main()
