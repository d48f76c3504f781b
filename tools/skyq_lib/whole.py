"""Whole-number expressions as the engine computes them, and the values that they stand for.

A `Whole` is an expression of the engine's language: its text, the largest size that its value may have, and what it is on
columns of numbers. A `Value` is a whole divided by a scale, or a number alone: the magnitude 9.5 in a column that keeps
thousandths is 9500 / 1000. All is exact: fractions here, whole numbers there.
"""
import dataclasses
import functools
import math
from fractions import Fraction

from skyq_lib.errors import SkyqError

LARGEST = 2**63 - 1                 # of a number in the engine's query
WIDEST = 2**100                     # of what the engine computes
FARTHEST = Fraction(10**200)        # from 0, of a number that is computed with
ATOM, PRODUCT, SUM = range(3)       # how loosely an expression holds together


@dataclasses.dataclass(frozen=True)
class Whole:
    text: str
    bound: int
    level: int
    parts: tuple                    # ("column", name), ("number", n) or (sign, left, right)

    def within(self, level):
        """The text as a part of an expression of this level."""
        return self.text if self.level <= level else f"({self.text})"

    @property
    def names(self):
        """The engine's columns in it."""
        kind, *rest = self.parts
        if kind == "number":
            return set()
        return {rest[0]} if kind == "column" else rest[0].names | rest[1].names

    def on(self, numbers):
        """Its value for each row: `numbers` gives the ints of a column by its name, as an array of Python's ints."""
        kind, *rest = self.parts
        if kind == "column":
            return numbers(rest[0])
        if kind == "number":
            return rest[0]
        left, right = rest[0].on(numbers), rest[1].on(numbers)
        return left * right if kind == "*" else left + right if kind == "+" else left - right


def column(name, bound):
    return Whole(name, bound, ATOM, ("column", name))


def number(n):
    if abs(n) > LARGEST:
        raise SkyqError(f"the number {float(n):.6g} is beyond what the engine takes in an expression, some 9.2e18 in units of its column")
    return Whole(str(n), abs(n), ATOM if n >= 0 else SUM, ("number", n))


def made(text, bound, level, parts):
    if bound > WIDEST:
        raise SkyqError(f"the query computes numbers of more than 100 bits: {text[:60]}")
    return Whole(text, bound, level, parts)


def plus(left, right):
    return made(f"{left.within(SUM)}+{right.within(PRODUCT)}", left.bound + right.bound, SUM, ("+", left, right))


def minus(left, right):
    return made(f"{left.within(SUM)}-{right.within(PRODUCT)}", left.bound + right.bound, SUM, ("-", left, right))


def times(left, right):
    return made(f"{left.within(PRODUCT)}*{right.within(ATOM)}", left.bound * right.bound, PRODUCT, ("*", left, right))


def total(parts):
    """The sum of several."""
    return functools.reduce(plus, parts)


@dataclasses.dataclass(frozen=True)
class Value:
    """A whole divided by its scale, in a unit. Of a number alone `const` is the number and `whole` None."""

    whole: Whole | None
    scale: Fraction = Fraction(1)
    kind: str = "int"               # int, float, bool, word
    unit: str | None = None
    column: object = None           # the catalogue's Column where the value is one alone
    const: Fraction | None = None

    def at(self, scale):
        """The value times a scale, a whole multiple of its own, as a Whole."""
        if self.const is not None:
            return number(int(self.const * scale))
        factor = int(scale / self.scale)
        return self.whole if factor == 1 else times(number(factor), self.whole)


def constant(n):
    n = Fraction(n)
    if n and not FARTHEST**-1 <= abs(n) <= FARTHEST:
        raise SkyqError("the query has a number beyond 1e200, or nearer to 0 than 1e-200")
    return Value(None, Fraction(n.denominator), "int" if n.denominator == 1 else "float", const=n)


def shared(a, b):
    """The least scale at which both are whole."""
    top = math.lcm(a.scale.numerator * b.scale.denominator, b.scale.numerator * a.scale.denominator)
    return Fraction(top, a.scale.denominator * b.scale.denominator)


def unit_of(a, b):
    """The unit of a sum: the one that both have, or that of the part that is no number alone."""
    if a.const is not None or b.const is not None:
        return b.unit if a.const is not None else a.unit
    return a.unit if a.unit == b.unit else None


def kind_of(a, b):
    return "int" if a.kind != "float" and b.kind != "float" else "float"


def added(sign, a, b):
    if a.const is not None and b.const is not None:
        return constant(a.const + b.const if sign == "+" else a.const - b.const)
    scale = shared(a, b)
    join = plus if sign == "+" else minus
    return Value(join(a.at(scale), b.at(scale)), scale, kind_of(a, b), unit_of(a, b))


def multiplied(a, b):
    if a.const is not None and b.const is not None:
        return constant(a.const * b.const)
    if a.const is not None:
        a, b = b, a
    unit = a.unit if b.const is not None else None
    return Value(times(a.whole, b.at(b.scale)), a.scale * b.scale, kind_of(a, b), unit)


def divided(a, b):
    """A value divided by a number that is not 0."""
    if a.const is not None:
        return constant(a.const / b.const)
    whole = a.whole if b.const > 0 else negated(a).whole
    return Value(whole, a.scale * abs(b.const), "float", a.unit)


def negated(a):
    if a.const is not None:
        return constant(-a.const)
    whole = made(f"-{a.whole.within(ATOM)}", a.whole.bound, SUM, ("-", number(0), a.whole))
    return dataclasses.replace(a, whole=whole, column=None)
