"""300 random ADQL queries, asked of the program, and the same questions computed by numpy on the degrees.

What a query should answer is computed here with nothing of skyq_lib: from the columns of the file, in doubles, with SQL's three
values as two masks, where a condition is true and where it is false.
"""
import unittest

import numpy as np
from astropy.table import Table

import programs
import support
from skyq_lib import engine, query, translate
from skyq_lib.columns import Catalogue

QUERIES = 300
IS_REAL = programs.use()


def vectors(ra, dec):
    a, d = np.radians(ra), np.radians(dec)
    return np.stack([np.cos(d) * np.cos(a), np.cos(d) * np.sin(a), np.sin(d)], axis=-1)


def decimals(column):
    """A column in doubles. A single float means the shortest decimal that gives it back: 14.8, and not 14.800000190734863."""
    values = np.ma.asarray(column)
    if values.dtype != np.dtype("f4"):
        return values.astype("f8")
    return np.ma.MaskedArray([float(str(value)) for value in np.ma.getdata(values)], mask=np.ma.getmaskarray(values))


class World:
    """A catalogue with the columns of its file: id, ra, dec, and mag with NULLs where `known` is false."""

    def __init__(self, folder, table, mag, other, word=None):
        self.folder = folder
        self.ids = np.asarray(table["id"], "i8")
        self.ra, self.dec = np.asarray(table["ra"], "f8"), np.asarray(table["dec"], "f8")
        self.mag, self.other, self.word = mag, other, word
        self.v = vectors(self.ra, self.dec)
        self.number = {name: decimals(table[name]) for name in (mag, other)}
        self.words = np.ma.asarray(table[word]) if word else None


class Writer:
    """Writes conditions: a text with its masks, where it is true and where it is false."""

    def __init__(self, world, rng):
        self.world, self.rng = world, rng
        self.made = np.ones(len(world.ids), bool)

    def pick(self, *rules):
        return rules[self.rng.integers(len(rules))]()

    def spot(self, spread):
        """A place near a row, in degrees."""
        k = self.rng.integers(len(self.world.ids))
        dec = float(np.clip(self.world.dec[k] + self.rng.normal() * spread, -89.99, 89.99))
        ra = (self.world.ra[k] + self.rng.normal() * spread / max(0.01, np.cos(np.radians(dec)))) % 360
        return round(float(ra), 5), round(dec, 5)

    def sides(self, inside):
        return inside, ~inside

    # -- areas

    def apart(self, a, d):
        return np.linalg.norm(self.world.v - vectors(a, d), axis=1)

    def cone(self):
        radius = round(float(10 ** self.rng.uniform(-1.5, 1)), 5)
        a, d = self.spot(radius)
        if self.rng.random() < 0.15:
            radius = round(float(self.rng.uniform(90, 178)), 4)
        inside = self.apart(a, d) <= 2 * np.sin(np.radians(radius) / 2)
        frame = self.pick(lambda: "'ICRS',", lambda: "")
        texts = [f"1=CONTAINS(POINT({frame}ra,dec),CIRCLE({frame}{a},{d},{radius}))",
                 f"DISTANCE(POINT(ra,dec),POINT({a},{d}))<={radius}",
                 f"CONTAINS(POINT({a},{d}),CIRCLE(POINT(ra,dec),{radius}))=1"]
        return (texts[self.rng.integers(3)], *self.sides(inside))

    def ring(self):
        a, d = self.spot(1)
        low, high = round(float(self.rng.uniform(0, 2)), 4), round(float(self.rng.uniform(2, 30)), 4)
        found = np.degrees(2 * np.arcsin(self.apart(a, d) / 2))
        return (f"DISTANCE({a},{d},ra,dec) BETWEEN {low} AND {high}", *self.sides((low <= found) & (found <= high)))

    def box(self):
        a, d = self.spot(1)
        width, height = round(float(10 ** self.rng.uniform(-1, 2.5)), 4), round(float(10 ** self.rng.uniform(-1, 1.5)), 4)
        if self.rng.random() < 0.3:
            width = round(float(self.rng.uniform(179, 400)), 3)
        across = np.abs((self.world.ra - a + 180) % 360 - 180) <= width / 2
        return (f"1=CONTAINS(POINT(ra,dec),BOX({a},{d},{width},{height}))", *self.sides(across & (np.abs(self.world.dec - d) <= height / 2)))

    def polygon(self):
        a, d = self.spot(1)
        d = float(np.clip(d, -80, 80))
        centre, radius = vectors(a, d), self.rng.uniform(0.3, 6)
        east = np.cross([0, 0, 1], centre)
        east /= np.linalg.norm(east)
        north = np.cross(centre, east)
        turns = self.rng.uniform(0, 1) + np.arange(n := int(self.rng.integers(3, 7))) * 2 * np.pi / n
        corners = [centre + np.tan(np.radians(radius)) * (np.cos(t) * east + np.sin(t) * north) for t in turns[:: self.rng.choice([1, -1])]]
        degrees = [(round(float(np.degrees(np.arctan2(p[1], p[0]))) % 360, 6), round(float(np.degrees(np.arctan2(p[2], np.hypot(*p[:2])))), 6)) for p in corners]
        points = [vectors(*corner) for corner in degrees]
        turn = np.sign(np.dot(np.cross(points[0], points[1]), centre))
        inside = np.all([turn * (self.world.v @ np.cross(p, q)) >= 0 for p, q in zip(points, points[1:] + points[:1])], axis=0)
        return (f"1=CONTAINS(POINT(ra,dec),POLYGON({','.join(f'{p},{q}' for p, q in degrees)}))", *self.sides(inside))

    # -- columns

    def number(self, name):
        """A number like those of a column, with 0 to 5 decimals, or one of them."""
        values = self.world.number[name].compressed()
        n = float(values[self.rng.integers(len(values))])
        return n if self.rng.random() < 0.3 else round(n + float(self.rng.normal()), int(self.rng.integers(0, 6)))

    def known(self, name, found):
        known = ~np.ma.getmaskarray(self.world.number[name])
        found = np.ma.getdata(found)
        return known & found, known & ~found

    def comparison(self):
        name = self.rng.choice([self.world.mag, self.world.other])
        op, n, v = self.rng.choice(["<", "<=", ">", ">=", "=", "<>"]), self.number(name), np.ma.getdata(self.world.number[name])
        found = {"<": v < n - 1e-9, "<=": v <= n + 1e-9, ">": v > n + 1e-9, ">=": v >= n - 1e-9,
                 "=": np.abs(v - n) < 1e-9, "<>": np.abs(v - n) >= 1e-9}[op]
        texts = [f"{name}{op}{n!r}", f"{n!r}{dict(zip('<>', '><')).get(op[0], op[0])}{op[1:]}{name}"]
        return (texts[0] if op == "<>" else texts[self.rng.integers(2)], *self.known(name, found))

    def between(self):
        name = self.world.mag
        low, v = self.number(name), np.ma.getdata(self.world.number[name])
        high = round(low + float(self.rng.uniform(0, 2)), 4)
        return (f"{name} BETWEEN {low!r} AND {high!r}", *self.known(name, (v >= low - 1e-9) & (v <= high + 1e-9)))

    def listed(self):
        name = self.rng.choice([self.world.mag, self.world.other])
        ns, v = [self.number(name) for _ in range(int(self.rng.integers(1, 5)))], np.ma.getdata(self.world.number[name])
        found = np.any([np.abs(v - n) < 1e-9 for n in ns], axis=0)
        return (f"{name} IN ({','.join(repr(n) for n in ns)})", *self.known(name, found))

    def null(self):
        mask = np.ma.getmaskarray(self.world.number[self.world.mag])
        return (f"{self.world.mag} IS NULL", mask, ~mask)

    def arithmetic(self):
        w = self.world
        a, b, m = np.ma.getdata(w.number[w.mag]), np.ma.getdata(w.number[w.other]), round(float(self.rng.uniform(-10, 30)), 3)
        both = ~np.ma.getmaskarray(w.number[w.mag]) & ~np.ma.getmaskarray(w.number[w.other])
        found = np.round(2 * a - b / 4 - m, 7) > 0
        return (f"2*{w.mag} - {w.other}/4 > {m!r}", both & found, both & ~found)

    def range(self):
        name = self.rng.choice(["ra", "dec"])
        low = round(float(getattr(self.world, name)[self.rng.integers(len(self.world.ids))]) - 1, 6)
        high, v = round(low + float(self.rng.uniform(0, 5)), 6), getattr(self.world, name)
        return (f"{name} BETWEEN {low!r} AND {high!r}", *self.sides((low <= v) & (v <= high)))

    def alike(self):
        if self.world.words is None:
            return self.comparison()
        words = np.ma.getdata(self.world.words).astype(str)
        start = words[self.rng.integers(len(words))][: int(self.rng.integers(1, 5))]
        if self.rng.random() < 0.5:
            return (f"{self.world.word} LIKE '{start}%'", *self.sides(np.char.startswith(words, start)))
        word = words[self.rng.integers(len(words))]
        return (f"{self.world.word}='{word}'", *self.sides(words == word))

    # -- together

    def leaf(self):
        return self.pick(self.cone, self.ring, self.box, self.polygon, self.comparison, self.comparison, self.between,
                         self.listed, self.null, self.arithmetic, self.range, self.alike)

    def condition(self, depth=2):
        draw = self.rng.random()
        if depth == 0 or draw < 0.3:
            return self.leaf()
        if draw < 0.45:
            text, yes, no = self.condition(depth - 1)
            return f"NOT ({text})", no, yes
        a, b = self.condition(depth - 1), self.condition(depth - 1)
        if draw < 0.75:
            return f"({a[0]}) AND ({b[0]})", a[1] & b[1], a[2] | b[2]
        return f"({a[0]}) OR ({b[0]})", a[1] | b[1], a[2] & b[2]


class RandomQueries(support.WithFolder):
    def catalogue(self, name, table, *words):
        """Ingests a table and returns its folder."""
        path = self.path(f"{name}.ecsv")
        table.write(path, format="ascii.ecsv")
        done = support.skyq("ingest", path, self.path(name), "--degrees", *words)
        self.assertEqual(done.returncode, 0, done.stderr)
        return self.path(name)

    def worlds(self):
        stars = Table.read(support.TYCHO2, format="ascii.csv")
        stars = stars if IS_REAL else stars[:: len(stars) // 250]
        galaxies = Table.read(support.OPENNGC, format="ascii.ecsv")
        galaxies["id"] = np.arange(1, len(galaxies) + 1)
        return [World(self.catalogue("stars", stars), stars, "vtmag", "sweep"),
                World(self.catalogue("galaxies", galaxies), galaxies, "mag", "pa", "name")]

    def asked(self, world, texts, is_exact):
        """The ids that each query answers."""
        catalogue = Catalogue.load(world.folder)
        made = [translate.translate(text, catalogue, exact=is_exact) for text in texts]
        found = []
        for at in range(0, len(made), 250):
            found += engine.ask(world.folder, [one.sql for one in made[at : at + 250]])
        return [query.result(one, answer, catalogue).table for one, answer in zip(made, found)]

    def test_the_rows_are_those_that_numpy_finds_on_the_degrees(self):
        rng, told = np.random.default_rng(20261129), []
        for world in self.worlds():
            writer = Writer(world, rng)
            conditions = [writer.condition() for _ in range(QUERIES // 2)]
            texts = [f"SELECT id FROM Object WHERE {text}" for text, _, _ in conditions]
            for is_exact in (False, True):
                tables = self.asked(world, texts, is_exact)
                for (text, yes, _), table in zip(conditions, tables):
                    want = sorted(world.ids[yes].tolist())
                    with self.subTest(text, exact=is_exact):
                        self.assertEqual(sorted(np.asarray(table["id"]).tolist()), want)
            told += [int(yes.sum()) for _, yes, _ in conditions]
        # most answers have some rows and not all of them, or the comparison would show little
        self.assertEqual(len(told), QUERIES)
        self.assertGreater(sum(0 < count < 200 or count > 200 for count in told), QUERIES // 2)


if __name__ == "__main__":
    unittest.main()
