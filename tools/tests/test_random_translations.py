"""Random queries of any sense: each is translated to one that the engine takes, or refused in one line."""
import os
import random
import sys
import unittest

from skyq_lib.errors import SkyqError
from skyq_lib.translate import translate
from test_random_conditions import NAMES, Writer
from test_translate import catalogue

sys.path.insert(0, os.path.join(os.path.dirname(os.path.abspath(__file__)), "..", "..", "scripts"))
import flat_answers  # noqa: E402
import sql_texts  # noqa: E402
import sql_trees  # noqa: E402

QUERIES = 6000
DEGREES = ["ra_deg", "dec_deg"]


class Asker(Writer):
    """Writes whole queries: of one table or two, with areas, aggregates and orders that often make no sense."""

    def __init__(self, draw, is_kept):
        super().__init__(draw)
        self.is_kept, self.tables = is_kept, [""]

    def few(self, *rules):
        return self.draw.choice(rules)()

    def table(self):
        return self.draw.choice(self.tables)

    def degrees(self):
        draw = self.draw
        return self.few(lambda: f"{draw.uniform(-90, 90):.4f}", lambda: f"{draw.uniform(-90, 360):.2f}", lambda: str(draw.choice([0, 90, -90, 180, 360, 1000, "1e80", "1e99*1e99*1e99*1e99", "1/3"])),
                        lambda: draw.choice(["ra", "mag", "1+1"]))

    def place(self):
        table = self.table()
        return self.few(lambda: f"{table}ra,{table}dec", lambda: f"{table}ra,{table}dec", lambda: f"{self.degrees()},{self.degrees()}")

    def point(self):
        return f"POINT({self.draw.choice(['', '', repr('ICRS') + ','])}{self.place()})"

    def angle(self):
        return self.few(lambda: f"{10 ** self.draw.uniform(-9, 2.2):.9f}", lambda: self.draw.choice(["0", "180", "1e-30", "-1", "90.0", "kind", "0.01"]))

    def shape(self):
        corners = lambda: ",".join(self.place() for _ in range(self.draw.randint(2, 5)))  # noqa: E731
        return self.few(lambda: f"CIRCLE({self.place()},{self.angle()})", lambda: f"CIRCLE({self.point()},{self.angle()})",
                        lambda: f"BOX({self.place()},{self.angle()},{self.angle()})", lambda: f"POLYGON({corners()})", self.point)

    def leaf(self):
        draw = self.draw.random()
        if draw < 0.3:
            return f"{self.draw.choice('01')}=CONTAINS({self.point()},{self.shape()})"
        if draw < 0.5:
            return f"DISTANCE({self.point()},{self.point()}) {self.draw.choice(['<', '<=', '>', '>='])} {self.angle()}"
        return super().leaf()

    def value(self, depth=3):
        text = super().value(depth)
        return self.table() + text if text[:1].isalpha() and self.tables[0] else text

    def item(self):
        table = self.table()
        name = self.few(lambda: "", lambda: "", lambda: " AS v", lambda: " AS mag")
        return self.few(lambda: table + self.draw.choice(["mag", "ra", "dec", "Id", "x", "SpType", "nope"]), lambda: "*", lambda: self.value(2) + name,
                        lambda: f"{self.draw.choice(['COUNT', 'SUM', 'MIN', 'MAX', 'AVG'])}({self.draw.choice(['*', table + 'mag', table + 'SpType', table + 'ra'])}){name}",
                        lambda: f"DISTANCE({self.point()},{self.point()}){name}")

    def query(self):
        draw = self.draw
        self.tables = draw.choice([[""], [""], ["p.", "q."]])
        is_join = len(self.tables) > 1
        items = ", ".join(self.item() for _ in range(draw.randint(1, 4)))
        source = "Object p, Object q" if is_join else "Object"
        where = [self.condition(2)] if draw.random() < 0.7 else []
        if is_join:
            where.insert(0, f"DISTANCE(POINT(p.ra,p.dec),POINT(q.ra,q.dec))<={self.angle()}")
        group = f" GROUP BY {self.table()}{draw.choice(['mag', 'kind', 'SpType', 'ra'])}" if draw.random() < 0.15 else ""
        order = f" ORDER BY {draw.choice(['1', 'mag', 'v', 'ra', '2', 'DISTANCE(POINT(ra,dec),POINT(1,2))', self.value(1)])}{draw.choice(['', ' DESC'])}" if draw.random() < 0.3 else ""
        top = f"TOP {draw.choice([0, 1, 10, 10**30])} " if draw.random() < 0.3 else ""
        return f"SELECT {top}{items} FROM {source}{' WHERE ' + ' AND '.join(where) if where else ''}{group}{order}"


class RandomTranslations(unittest.TestCase):
    def test_each_is_taken_by_the_engine_or_refused_in_one_line(self):
        draw, taken, why = random.Random(11), 0, set()
        askers = {is_kept: Asker(draw, is_kept) for is_kept in (False, True)}
        for number in range(QUERIES):
            is_kept = number % 2 == 1
            text, is_exact = askers[is_kept].query(), draw.random() < 0.5
            try:
                made = translate(text, catalogue(is_kept), draw.choice([None, 0, 100]), is_exact)
            except SkyqError as fault:
                self.assertNotIn("\n", str(fault))
                why.add(str(fault)[:25])
                continue
            taken += 1
            names = NAMES[:4] + (DEGREES if is_kept else []) + NAMES[4:]
            try:
                bound = flat_answers.Binder(made.sql, sql_texts.read(made.sql), names)
                bound.check()
            except sql_trees.Refused as fault:
                self.fail(f"{fault}: {text} became {made.sql}")
            self.assertEqual(len(bound.query.items), len(made.places), text)
        self.assertGreater(taken, QUERIES / 10)
        self.assertGreater(len(why), 20)


if __name__ == "__main__":
    unittest.main()
