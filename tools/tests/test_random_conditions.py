"""Random conditions of ADQL on random rows: what the translated text means to the repository's own reader of the engine's
language (scripts/flat_answers.py), against the condition worked out in fractions with SQL's three values."""
import os
import random
import re
import sys
import unittest
from fractions import Fraction

from skyq_lib import adql
from skyq_lib import adql_tree as tree
from skyq_lib.errors import SkyqError
from skyq_lib.translate import translate
from test_translate import COLUMNS, catalogue

sys.path.insert(0, os.path.join(os.path.dirname(os.path.abspath(__file__)), "..", "..", "scripts"))
import flat_answers  # noqa: E402
import sql_texts  # noqa: E402

CONDITIONS, ROWS = 2000, 25
NAMES = ["objectId", "x", "y", "z", *(column.name for column in COLUMNS)]
SCALES = {"mag": 1000, "flux": 10, "kind": 1, "id": 1}
LARGE = 2**50


class Writer:
    def __init__(self, draw):
        self.draw = draw

    def number(self):
        draw = self.draw
        return draw.choice([
            lambda: str(draw.randint(-5, 5)), lambda: f"{draw.uniform(-5, 5):.{draw.randrange(6)}f}", lambda: f"{draw.randint(0, 20) / 10}",
            lambda: f"{draw.uniform(-9, 9):.3f}e{draw.randint(-6, 20)}", lambda: str(draw.choice([LARGE, LARGE + 1, -LARGE, 2**63 - 1, 2**63, 10**30])),
        ])()

    def value(self, depth=3):
        draw = self.draw
        if depth == 0 or draw.random() < 0.4:
            return draw.choice(["mag", "Mag", "flux", "kind", "Id"]) if draw.random() < 0.6 else self.number()
        op = draw.choice("+-*/")
        right = draw.choice(["2", "-4", "2.5", "0.001", "3"]) if op == "/" else self.value(depth - 1)
        if op == "*" and draw.random() < 0.8:
            right = self.number()
        return draw.choice(["{} {} {}", "({} {} {})", "-({} {} {})"]).format(self.value(depth - 1), op, right)

    def leaf(self):
        draw = self.draw
        form = draw.randrange(7)
        no = draw.choice(["", "NOT "])
        if form < 3:
            return f"{self.value()} {draw.choice(['=', '<>', '!=', '<', '<=', '>', '>='])} {self.value()}"
        if form == 3:
            return f"{self.value(1)} {no}BETWEEN {self.value(1)} AND {self.value(1)}"
        if form == 4:
            return f"{self.value(1)} {no}IN ({', '.join(self.number() for _ in range(draw.randint(1, 4)))})"
        if form == 5:
            return f"{self.value(1)} IS {no}NULL"
        return draw.choice(["SpType = 'G2'", "SpType <> 'B'", "SpType LIKE 'G%'", "SpType NOT LIKE '%2%'", "SpType IN ('A0','B')", "SpType NOT IN ('C')", "SpType IS NULL"])

    def condition(self, depth=3):
        draw = self.draw.random()
        if depth == 0 or draw < 0.35:
            return self.leaf()
        if draw < 0.5:
            return f"NOT ({self.condition(depth - 1)})"
        return f"({self.condition(depth - 1)}) {self.draw.choice(['AND', 'OR'])} ({self.condition(depth - 1)})"

    def row(self):
        draw = self.draw
        few = lambda: draw.choice([None, 0, 1, -1, draw.randint(-60, 60), draw.randint(-6000, 6000), LARGE, -LARGE, draw.randint(-LARGE, LARGE)])  # noqa: E731
        words = draw.choice([None, 0, 1, 2, 3])
        return dict(zip(NAMES, [draw.choice([0, 1, 2, draw.randint(0, 60), 2**63 - 1]), 268435456, 0, 0, few(), few(), few(), words]))


# ---- what a tree means, in fractions


def value_of(node, row):
    if isinstance(node, tree.Number):
        return node.value
    if isinstance(node, tree.Negative):
        of = value_of(node.of, row)
        return None if of is None else -of
    if isinstance(node, tree.Name):
        name = node.name.lower()
        whole = row[{"id": "objectId", "flux": "flux_"}.get(name, name)]
        return None if whole is None else Fraction(whole, SCALES[name])
    left, right = value_of(node.left, row), value_of(node.right, row)
    if left is None or right is None:
        return None
    return {"+": lambda: left + right, "-": lambda: left - right, "*": lambda: left * right, "/": lambda: left / right}[node.op]()


def compared(op, left, right):
    if left is None or right is None:
        return None
    return {"=": left == right, "<>": left != right, "<": left < right, "<=": left <= right, ">": left > right, ">=": left >= right}[op]


def negated(truth):
    return None if truth is None else not truth


def junction(word, parts):
    settles = word == "OR"
    return settles if settles in parts else None if None in parts else not settles


def word_of(row):
    return None if row["sp"] is None else COLUMNS[3].words[row["sp"]]


def truth_of(node, row):
    """True, False or None of a condition."""
    if isinstance(node, tree.Not):
        return negated(truth_of(node.of, row))
    if isinstance(node, tree.Junction):
        return junction(node.word, [truth_of(part, row) for part in node.parts])
    if isinstance(node, (tree.Like, tree.In, tree.IsNull)) or isinstance(node.value if hasattr(node, "value") else node.right, tree.Text):
        found = listed(node, row)
    elif isinstance(node, tree.Between):
        value = value_of(node.value, row)
        found = junction("AND", [compared(">=", value, value_of(node.low, row)), compared("<=", value, value_of(node.high, row))])
    else:
        found = compared(node.op, value_of(node.left, row), value_of(node.right, row))
    return negated(found) if getattr(node, "no", False) else found


def listed(node, row):
    """The truth of a list, a NULL test or a comparison of words, without its NOT."""
    if isinstance(node, tree.Binary):
        return compared(node.op, word_of(row), node.right.value)
    is_word = isinstance(node.value, tree.Name) and node.value.name == "SpType"
    value = word_of(row) if is_word else value_of(node.value, row)
    if isinstance(node, tree.IsNull):
        return value is None
    if value is None:
        return None
    if isinstance(node, tree.Like):
        return bool(re.fullmatch(node.pattern.replace("%", ".*"), value))
    return value in [one.value if is_word else value_of(one, row) for one in node.listed]


class RandomConditions(unittest.TestCase):
    def test_the_translation_means_the_same(self):
        draw = random.Random(20261129)
        writer, asked, refused, true = Writer(draw), 0, 0, 0
        while asked < CONDITIONS:
            text = writer.condition()
            try:
                sql = translate(f"SELECT Id FROM Object WHERE {text}", catalogue()).sql
            except SkyqError as fault:
                self.assertRegex(str(fault), "beyond what the engine|more than 100 bits|too long", text)
                refused += 1
                continue
            asked += 1
            bound = flat_answers.Binder(sql, sql_texts.read(sql), NAMES)
            bound.check()       # the engine would not refuse it
            node, rows = adql.read_condition(text), [writer.row() for _ in range(ROWS)]
            for row in rows:
                want = truth_of(node, row)
                true += want is True
                self.assertEqual(bound.query.cond.truth((row, None)) is True, want is True, (text, sql, row))
        self.assertLess(refused, CONDITIONS)
        self.assertGreater(true, CONDITIONS * ROWS / 10)


if __name__ == "__main__":
    unittest.main()
