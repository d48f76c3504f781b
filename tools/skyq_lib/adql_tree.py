"""The tree of an ADQL query: what `adql` reads and `translate` takes. Numbers are exact fractions."""
from dataclasses import dataclass, field
from fractions import Fraction


@dataclass
class Name:
    """A column, with its table's alias where one is given; `exact` where it stood in double quotes."""
    table: str | None
    name: str
    exact: bool = False


@dataclass
class Number:
    value: Fraction


@dataclass
class Text:
    value: str


@dataclass
class Star:
    table: str | None = None


@dataclass
class Call:
    """A function or an aggregate by its name in capitals."""
    name: str
    args: list


@dataclass
class Negative:
    of: object


@dataclass
class Binary:
    """One of + - * / and the comparisons = <> < <= > >=."""
    op: str
    left: object
    right: object


@dataclass
class Junction:
    """AND or OR of two or more conditions."""
    word: str
    parts: list


@dataclass
class Not:
    of: object


@dataclass
class Between:
    value: object
    low: object
    high: object
    no: bool = False


@dataclass
class In:
    value: object
    listed: list
    no: bool = False


@dataclass
class Like:
    value: object
    pattern: str
    no: bool = False


@dataclass
class IsNull:
    value: object
    no: bool = False


@dataclass
class Item:
    value: object
    alias: str | None = None
    text: str = ""


@dataclass
class Query:
    items: list
    tables: list                    # (name, alias) each
    where: list                     # conditions, all of which hold
    group: list = field(default_factory=list)
    order: object = None            # a value, or a Number: the place of an item from 1
    down: bool = False
    top: int | None = None
