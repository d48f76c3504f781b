"""Conditions in the engine's language: comparisons of wholes, lists, NULL tests, AND and OR.

Each condition has `text`, which may stand anywhere; `top_text`, what stands for it where nothing but AND is around; `names`,
the engine's columns that decide it; `is_rounded`, whether it meets the rounding of positions; and `truth(rows)`, where it is
true for rows of an answer. NOT is gone: it is pushed down to the comparisons, which keeps SQL's three values as they are.
"""
import dataclasses
import math
import operator

import numpy as np

from skyq_lib import whole as w
from skyq_lib.errors import SkyqError

OPERATORS = {"=": operator.eq, "<>": operator.ne, "<": operator.lt, "<=": operator.le, ">": operator.gt, ">=": operator.ge}
OPPOSITE = {"=": "<>", "<>": "=", "<": ">=", ">=": "<", ">": "<=", "<=": ">"}
MIRRORED = {"=": "=", "<>": "<>", "<": ">", ">": "<", "<=": ">=", ">=": "<="}


class Condition:
    is_rounded = False

    @property
    def top_text(self):
        return self.text


@dataclasses.dataclass
class Comparison(Condition):
    op: str
    left: w.Whole
    right: w.Whole

    @property
    def text(self):
        return f"{self.left.text}{self.op}{self.right.text}"

    @property
    def names(self):
        return self.left.names | self.right.names

    def truth(self, rows):
        found = OPERATORS[self.op](self.left.on(rows.numbers), self.right.on(rows.numbers))
        return rows.known(self.names) & rows.mask(found)


@dataclasses.dataclass
class Among(Condition):
    """A whole that is in a list, or is not in it."""
    value: w.Whole
    ints: list
    no: bool = False

    @property
    def text(self):
        listed = ",".join(str(n) for n in self.ints)
        return f"{self.value.text}{' NOT' if self.no else ''} IN ({listed})"

    @property
    def names(self):
        return self.value.names

    def truth(self, rows):
        found = np.isin(self.value.on(rows.numbers), np.array(self.ints, dtype=object))
        return rows.known(self.names) & (found != self.no)


@dataclasses.dataclass
class Null(Condition):
    value: w.Whole
    no: bool = False

    @property
    def text(self):
        return f"{self.value.text} IS {'NOT ' if self.no else ''}NULL"

    @property
    def names(self):
        return self.value.names

    def truth(self, rows):
        return rows.known(self.names) == self.no


@dataclasses.dataclass
class Junction(Condition):
    """AND or OR of conditions."""
    word: str
    parts: list

    @property
    def text(self):
        return "(" + f" {self.word} ".join(part.text for part in self.parts) + ")"

    @property
    def names(self):
        return set().union(*(part.names for part in self.parts))

    @property
    def is_rounded(self):
        return any(part.is_rounded for part in self.parts)

    def truth(self, rows):
        join = np.logical_and if self.word == "AND" else np.logical_or
        return join.reduce([part.truth(rows) for part in self.parts])


def joined(word, parts):
    """AND or OR of conditions, those of the same word taken in."""
    flat = []
    for part in parts:
        flat += part.parts if isinstance(part, Junction) and part.word == word else [part]
    return flat[0] if len(flat) == 1 else Junction(word, flat)


def conjuncts(condition):
    """The conditions that must all hold."""
    return condition.parts if isinstance(condition, Junction) and condition.word == "AND" else [condition]


def settled(is_true, value=None):
    """A condition that is always true, or never; of a value, where it is not NULL."""
    value = value or w.number(0)
    return Comparison("=" if is_true else "<>", value, value)


def compared(op, a, b):
    """The comparison of two Values, exact on what is stored."""
    if a.const is not None and b.const is not None:
        return settled(OPERATORS[op](a.const, b.const))
    if a.const is not None:
        a, b, op = b, a, MIRRORED[op]
    if b.const is not None:
        return with_number(op, a.whole, b.const * a.scale)
    scale = w.shared(a, b)
    return Comparison(op, a.at(scale), b.at(scale))


def with_number(op, value, bound):
    """A whole compared with any fraction, as a comparison with a whole number: v < 9.5 is v <= 9."""
    if op in ("=", "<>"):
        if bound.denominator != 1 or abs(bound) > value.bound:
            return settled(op == "<>", value)
        return Comparison(op, value, number_of(bound))
    if bound.denominator != 1:
        op = op[0] + "="
    n = math.floor(bound) if op[0] == "<" else math.ceil(bound)
    if abs(n) > value.bound:
        return settled((n > 0) == (op[0] == "<"), value)
    return Comparison(op, value, number_of(n))


def number_of(n):
    if abs(n) > w.LARGEST:
        raise SkyqError(f"the number {float(n):.6g} is beyond what the engine compares with")
    return w.number(int(n))


def among(value, fractions, no):
    """A whole that is in a list of fractions; those that it can never be are left out."""
    ints = sorted({int(n) for n in fractions if n.denominator == 1 and abs(n) <= value.bound})
    if not ints:
        return settled(no, value)
    return Among(value, [number_of(n).parts[1] for n in ints], no)
