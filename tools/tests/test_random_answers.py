"""Random questions for pairs, groups and orders, compared with numpy and fractions over the columns that were ingested."""
import unittest
from fractions import Fraction

import numpy as np
from astropy.table import Table

import programs
import support
from skyq_lib import engine, query, translate
from skyq_lib.columns import Catalogue

IS_REAL = programs.use()
PAIRS, GROUPS = (120, 60) if IS_REAL else (10, 16)


def vectors(ra, dec):
    a, d = np.radians(ra), np.radians(dec)
    return np.stack([np.cos(d) * np.cos(a), np.cos(d) * np.sin(a), np.sin(d)], axis=-1)


def field(rng):
    """Clusters of stars: at both poles, across right ascension 0, and elsewhere; 1 to 200 arcsec wide."""
    ra, dec = [], []
    for a, d in [(0, 90), (10, -90), (0, 0), (359.9999, 45), (180, -30), (200, 89.99)]:
        for _ in range(28):
            apart, turn = 10 ** rng.uniform(0, 2.3) / 3600, rng.uniform(0, 2 * np.pi)
            here = float(np.clip(d + apart * np.sin(turn), -90, 90))
            if abs(d) == 90:
                here, there = d - np.sign(d) * apart, rng.uniform(0, 360)
            else:
                there = a + apart * np.cos(turn) / np.cos(np.radians(here))
            ra.append(round(float(there) % 360, 7))
            dec.append(round(here, 7))
    count = len(ra)
    mag = np.ma.MaskedArray(np.round(rng.uniform(-1, 15, count), 2), mask=rng.random(count) < 0.1)
    table = Table({"id": rng.permutation(count * 3)[:count] + 1, "ra": ra, "dec": dec, "kind": rng.integers(0, 4, count)})
    table["mag"] = mag
    return table


class RandomAnswers(support.WithFolder):
    def setUp(self):
        super().setUp()
        self.rng = np.random.default_rng(7)
        self.rows = field(self.rng)
        self.rows.write(self.path("field.ecsv"), format="ascii.ecsv")
        done = support.skyq("ingest", self.path("field.ecsv"), self.path("field"), "--degrees")
        self.assertEqual(done.returncode, 0, done.stderr)
        self.catalogue = Catalogue.load(self.path("field"))
        self.ids = np.asarray(self.rows["id"], "i8")
        self.v = vectors(np.asarray(self.rows["ra"]), np.asarray(self.rows["dec"]))
        self.mag = np.ma.asarray(self.rows["mag"])

    def tables(self, texts, is_exact=False):
        made = [translate.translate(text, self.catalogue, exact=is_exact) for text in texts]
        found = engine.ask(self.path("field"), [one.sql for one in made])
        return [query.result(one, answer, self.catalogue).table for one, answer in zip(made, found)]

    # -- pairs

    def pair_question(self, apart):
        """A query for pairs and the pairs, as a mask over all ordered pairs of rows."""
        rng, limit = self.rng, float(10 ** self.rng.uniform(0, 1.778))
        texts, keep = ["a.id<b.id"], (self.ids[:, None] < self.ids[None, :]) & (apart <= limit)
        known, mag = ~np.ma.getmaskarray(self.mag), np.ma.getdata(self.mag)
        if rng.random() < 0.4:
            n = round(float(rng.uniform(0, 15)), 1)
            texts.append(f"(a.mag<{n} OR b.mag<{n})")
            bright = known & (mag < n - 1e-9)
            keep &= bright[:, None] | bright[None, :]
        if rng.random() < 0.4:
            n = round(float(rng.uniform(-3, 3)), 3)
            texts.append(f"a.mag-b.mag>{n!r}")
            keep &= known[:, None] & known[None, :] & (np.round(mag[:, None] - mag[None, :] - n, 6) > 0)
        if rng.random() < 0.3:
            least = limit * float(rng.uniform(0.1, 0.9))
            texts.append(f"DISTANCE(POINT(a.ra,a.dec),POINT(b.ra,b.dec))>{least / 3600!r}")
            keep &= apart > least
        if rng.random() < 0.4:
            k, which = int(rng.integers(len(self.ids))), int(rng.integers(2))
            ra, dec, radius = (float(n) for n in (self.rows["ra"][k], self.rows["dec"][k], rng.uniform(10, 100)))
            inside = np.linalg.norm(self.v - vectors(ra, dec), axis=1) <= 2 * np.sin(np.radians(radius / 3600) / 2)
            texts.append(f"1=CONTAINS(POINT({'ab'[which]}.ra,{'ab'[which]}.dec),CIRCLE({ra!r},{dec!r},{radius / 3600!r}))")
            keep &= inside[:, None] if which == 0 else inside[None, :]
        near = [f"1=CONTAINS(POINT(b.ra,b.dec),CIRCLE(a.ra,a.dec,{limit / 3600!r}))",
                f"DISTANCE(POINT(a.ra,a.dec),POINT(b.ra,b.dec))<={limit / 3600!r}"][rng.integers(2)]
        join = rng.integers(2)
        source = f"Object AS a JOIN Object AS b ON {near} WHERE" if join else f"Object AS a, Object b WHERE {near} AND"
        distance = "DISTANCE(POINT(a.ra,a.dec),POINT(b.ra,b.dec))"
        return f"SELECT a.id,b.id,{distance} AS apart FROM {source} {' AND '.join(texts)}", keep

    def test_pairs(self):
        apart = np.degrees(2 * np.arcsin(np.linalg.norm(self.v[:, None] - self.v[None, :], axis=-1) / 2)) * 3600
        questions = [self.pair_question(apart) for _ in range(PAIRS)]
        count = 0
        for is_exact in (False, True):
            for (text, keep), table in zip(questions, self.tables([text for text, _ in questions], is_exact)):
                a, b = np.nonzero(keep)
                want = sorted(zip(self.ids[a].tolist(), self.ids[b].tolist()))
                with self.subTest(text, exact=is_exact):
                    self.assertEqual(table.colnames, ["a_id", "b_id", "apart"])
                    self.assertEqual(sorted(zip(table["a_id"].tolist(), table["b_id"].tolist())), want)
                    place = {int(number): k for k, number in enumerate(self.ids)}
                    for one, other, degrees in table:
                        self.assertAlmostEqual(degrees * 3600, apart[place[one], place[other]], delta=1e-6)
                count += len(want)
        self.assertGreater(count, PAIRS)

    def test_an_overlap_is_as_far_as_pairs_reach(self):
        text = "SELECT a.id FROM Object AS a JOIN Object AS b ON DISTANCE(POINT(a.ra,a.dec),POINT(b.ra,b.dec))<={!r}"
        for is_exact in (False, True):
            self.assertGreater(len(self.tables([text.format(60 / 3600)], is_exact)[0]), 0)
            with self.assertRaisesRegex(Exception, "^pairs within 60.01 arcsec reach past the overlap of this catalogue, 60 arcsec: "
                                                   "ingest it with --overlap 60.01arcsec$"):
                self.tables([text.format(60.01 / 3600)], is_exact)

    # -- groups and orders

    def group_of(self, name, where):
        """Each value of a column among the rows of a mask, with the places of its rows; NULL is a value."""
        values = self.rows[name]
        found = {}
        for k in np.flatnonzero(where):
            found.setdefault(None if np.ma.is_masked(values[k]) else values[k].item(), []).append(k)
        return found

    def test_groups(self):
        exact_mag = [None if np.ma.is_masked(m) else Fraction(str(m)) for m in self.mag]
        questions = []
        for _ in range(GROUPS):
            key = self.rng.choice(["kind", "mag"])
            n = int(self.rng.integers(0, 300))
            questions.append((key, n, f"SELECT {key}, COUNT(*) AS n, COUNT(mag), SUM(mag) AS s, AVG(mag) AS m, MIN(mag) AS low, MAX(id) AS high"
                                      f" FROM Object WHERE id<{n} GROUP BY {key}"))
        for (key, n, text), table in zip(questions, self.tables([text for _, _, text in questions])):
            want = self.group_of(key, self.ids < n)
            with self.subTest(text):
                self.assertEqual(table.colnames, [key, "n", "count", "s", "m", "low", "high"])
                self.assertEqual(len(table), len(want))
                for row in table:
                    places = want[None if np.ma.is_masked(row[key]) else row[key].item()]
                    mags = [exact_mag[k] for k in places if exact_mag[k] is not None]
                    self.assertEqual((row["n"], row["count"], row["high"]), (len(places), len(mags), max(self.ids[places])))
                    if not mags:
                        self.assertTrue(all(np.ma.is_masked(row[name]) for name in ("s", "m", "low")))
                        continue
                    self.assertEqual((row["s"], row["low"]), (float(sum(mags)), float(min(mags))))
                    # an average has four decimals beside those of its column
                    self.assertAlmostEqual(row["m"], float(sum(mags) / len(mags)), delta=0.5e-6 + 1e-12)

    def test_the_brightest_first_and_the_nearest_first(self):
        known = np.flatnonzero(~np.ma.getmaskarray(self.mag))
        descending = sorted(known, key=lambda k: (-self.mag[k], self.ids[k]))
        every = np.sort(np.linalg.norm(self.v[:, None] - self.v[None, :], axis=-1), axis=1)
        centre = int(np.argmax(np.diff(every, axis=1)[:, :20].min(axis=1)))
        apart = np.linalg.norm(self.v - self.v[centre], axis=1)
        nearest = np.argsort(apart)
        self.assertGreater(np.diff(apart[nearest])[:20].min(), 2e-8)      # no two differ by as little as rounding
        ra, dec = float(self.rows["ra"][centre]), float(self.rows["dec"][centre])
        distance = f"DISTANCE(POINT(ra,dec),POINT({ra!r},{dec!r}))"
        tables = self.tables([
            "SELECT TOP 20 id, mag FROM Object WHERE mag IS NOT NULL ORDER BY mag DESC",
            "SELECT TOP 20 mag AS bright, id FROM Object WHERE mag IS NOT NULL ORDER BY 1 DESC",
            f"SELECT TOP 20 id, {distance} AS d FROM Object ORDER BY d",
            f"SELECT TOP 20 id FROM Object ORDER BY {distance}",
            f"SELECT MIN({distance}) AS least, MAX({distance}) AS most FROM Object",
        ])
        self.assertEqual(tables[0]["id"].tolist(), self.ids[descending[:20]].tolist())
        self.assertEqual(tables[1]["id"].tolist(), self.ids[descending[:20]].tolist())
        self.assertEqual(tables[2]["id"].tolist(), self.ids[nearest[:20]].tolist())
        self.assertEqual(tables[3]["id"].tolist(), self.ids[nearest[:20]].tolist())
        self.assertAlmostEqual(tables[4]["most"][0], 2 * np.degrees(np.arcsin(apart.max() / 2)), delta=1e-2)
        self.assertEqual(tables[4]["least"][0], 0)


if __name__ == "__main__":
    unittest.main()
