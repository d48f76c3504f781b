"""The parser of ADQL: trees of what it reads, and the line for each thing that it does not."""
import random
import unittest
from fractions import Fraction

from skyq_lib import adql
from skyq_lib.adql_tree import Between, Binary, Call, In, IsNull, Item, Junction, Like, Name, Negative, Not, Number, Star, Text
from skyq_lib.errors import SkyqError


def name(text):
    table, _, column = text.rpartition(".")
    return Name(table or None, column)


def num(text):
    return Number(Fraction(text))


CONDITIONS = [
    ("a<1 OR b<2 AND NOT c<3", Junction("OR", [Binary("<", name("a"), num(1)), Junction("AND", [Binary("<", name("b"), num(2)), Not(Binary("<", name("c"), num(3)))])])),
    ("(a<1 OR b<2) AND c<3", Junction("AND", [Junction("OR", [Binary("<", name("a"), num(1)), Binary("<", name("b"), num(2))]), Binary("<", name("c"), num(3))])),
    ("a BETWEEN 1 AND 2 AND b NOT BETWEEN c AND 4", Junction("AND", [Between(name("a"), num(1), num(2)), Between(name("b"), name("c"), num(4), True)])),
    ("t.a*2+b/3-c >= -1.5e-3", Binary(">=", Binary("-", Binary("+", Binary("*", name("t.a"), num(2)), Binary("/", name("b"), num(3))), name("c")), Negative(num("0.0015")))),
    ("a-(b-c) != .25", Binary("<>", Binary("-", name("a"), Binary("-", name("b"), name("c"))), num("1/4"))),
    ("a IN (1,-2) OR a NOT IN ('x','it''s')", Junction("OR", [In(name("a"), [num(1), Negative(num(2))]), In(name("a"), [Text("x"), Text("it's")], True)])),
    ("a IS NULL AND b IS NOT NULL", Junction("AND", [IsNull(name("a")), IsNull(name("b"), True)])),
    ("a LIKE 'G%' AND b NOT LIKE '_'", Junction("AND", [Like(name("a"), "G%"), Like(name("b"), "_", True)])),
    ('"Select"."a ""b"""=1', Binary("=", Name("Select", 'a "b"', True), num(1))),
    ("1=CONTAINS(POINT('ICRS',ra,dec),CIRCLE(1,2,3)) -- a comment", Binary("=", num(1), Call("CONTAINS", [Call("POINT", [Text("ICRS"), name("ra"), name("dec")]), Call("CIRCLE", [num(1), num(2), num(3)])]))),
    ("NOT NOT a=b", Not(Not(Binary("=", name("a"), name("b"))))),
]

REFUSED = [
    ("", "the query cannot be read at its end: a query begins with SELECT"),
    ("DELETE FROM Object", "the query cannot be read at 'DELETE', character 1: a query begins with SELECT"),
    ("SELECT id", "the query cannot be read at its end: FROM is missing"),
    ("SELECT FROM Object", "the query cannot be read at 'FROM', character 8: a value is missing"),
    ("SELECT id FROM Object WHERE", "the query cannot be read at its end: a value is missing"),
    ("SELECT id FROM Object WHERE a <", "the query cannot be read at its end: a value is missing"),
    ("SELECT id FROM Object WHERE a < 1)", "the query cannot be read at ')', character 34: the query has ended before it"),
    ("SELECT id FROM Object WHERE (a < 1", "the query cannot be read at its end: ) is missing"),
    ("SELECT id FROM Object WHERE a BETWEEN 1", "the query cannot be read at its end: AND is missing"),
    ("SELECT id FROM Object WHERE a NOT 1", "the query cannot be read at '1', character 35: BETWEEN, IN or LIKE is missing"),
    ("SELECT id FROM Object WHERE a LIKE b", "the query cannot be read at 'b', character 36: LIKE takes a pattern in quotes"),
    ("SELECT TOP x id FROM Object", "the query cannot be read at 'x', character 12: TOP takes a whole number"),
    ("SELECT TOP 1.5 id FROM Object", "the query cannot be read at '1.5', character 12: TOP takes a whole number"),
    ("SELECT id FROM Object; SELECT", "the query cannot be read at 'SELECT', character 24: the query has ended before it"),
    ("SELECT 'a FROM Object", "the query has a quote that is not closed at character 8"),
    ("SELECT a&b FROM Object", "the query has the sign '&' at character 9"),
    ("SELECT 1e999 FROM Object", "the number 1e999 at character 8 is beyond what is answered here"),
    ("SELECT id FROM Object GROUP BY FLOOR(mag)", "GROUP BY takes columns alone; for bins, give the table a column of them when it is ingested"),
    ("SELECT id FROM Object ORDER BY a, b", "ORDER BY takes one key here; order the answer by the others instead"),
    ("SELECT DISTINCT id FROM Object", "DISTINCT is not answered here; GROUP BY the same columns gives each combination once"),
    ("SELECT COUNT(DISTINCT id) FROM Object", "COUNT(DISTINCT ..) is not answered here; GROUP BY the column and count the groups"),
    ("SELECT kind FROM Object GROUP BY kind HAVING COUNT(*)>1", "HAVING is not answered here; filter the groups of the answer instead"),
    ("SELECT id FROM Object OFFSET 5", "OFFSET is not answered here; ask for TOP n and leave out the first rows"),
    ("SELECT id FROM Object LIMIT 5", "LIMIT is not ADQL; write SELECT TOP n"),
    ("SELECT id FROM Object UNION SELECT id FROM Object", "UNION is not answered here; ask each query by itself"),
    ("WITH t AS (SELECT 1) SELECT id FROM t", "WITH is not answered here; write the query in one SELECT"),
    ("SELECT id FROM Object a LEFT JOIN Object b ON a.id=b.id", "outer joins are not answered here; only pairs of objects that are near each other"),
    ("SELECT id FROM (SELECT id FROM Object) AS t", "a query inside of another is not answered here"),
    ("SELECT id FROM Object WHERE id IN (SELECT id FROM Object)", "a query inside of another is not answered here"),
    ("SELECT id FROM Object WHERE EXISTS (SELECT id FROM Object)", "EXISTS is not answered here; a query has no other query inside"),
    ("SELECT a||b FROM Object", "|| is not answered here; words are only compared"),
    ("SELECT CASE WHEN a>1 THEN 1 END FROM Object", "CASE is not answered here; ask a query for each case"),
    ("SELECT " + "(" * 61 + "a" + ")" * 61 + " FROM Object", "the query has more than 60 brackets within brackets"),
    ("SELECT " + "-" * 4000 + "a FROM Object", "the query cannot be read at its end: a value is missing"),
    ("SELECT " + "- " * 4000 + "a FROM Object", "the query has more than 60 brackets within brackets"),
]


class Reads(unittest.TestCase):
    def test_conditions(self):
        for text, want in CONDITIONS:
            with self.subTest(text):
                self.assertEqual(adql.read_condition(text), want)

    def test_the_clauses_of_a_query(self):
        query = adql.read("select top 7 a.*, b.mag AS m, COUNT(*) n FROM db.Object a inner join Object AS b ON a.x<1, Object"
                          " WHERE a.y=2 GROUP BY a.k, b.k ORDER BY m DESC ;")
        self.assertEqual(query.items, [Item(Star("a")), Item(name("b.mag"), "m", "b.mag"), Item(Call("COUNT", [Star()]), "n", "COUNT(*)")])
        self.assertEqual(query.tables, [("db.Object", "a"), ("Object", "b"), ("Object", None)])
        self.assertEqual(query.where, [Binary("<", name("a.x"), num(1)), Binary("=", name("a.y"), num(2))])
        self.assertEqual((query.group, query.order, query.down, query.top), ([name("a.k"), name("b.k")], name("m"), True, 7))

    def test_refusals_say_what_is_wrong_and_where(self):
        for text, want in REFUSED:
            with self.subTest(text), self.assertRaises(SkyqError) as caught:
                adql.read(text)
            self.assertEqual(str(caught.exception), want)

    def test_any_text_is_read_or_refused_in_one_line(self):
        draw = random.Random(1)
        words = ("SELECT TOP 3 id , ra FROM Object a JOIN b ON WHERE ( ) AND OR NOT BETWEEN IN IS NULL LIKE 'x' 1 2.5 + - * / = < >= "
                 "COUNT DISTANCE POINT CIRCLE CONTAINS GROUP BY ORDER DESC \" ' ; . -- \n AS").split(" ")
        read = 0
        for _ in range(20000):
            text = " ".join(draw.choices(words, k=draw.randrange(25)))
            text = ("SELECT id FROM Object WHERE " if draw.random() < 0.7 else "") + text
            try:
                adql.read(text)
                read += 1
            except SkyqError as fault:
                self.assertNotIn("\n", str(fault))
        self.assertGreater(read, 100)


if __name__ == "__main__":
    unittest.main()
