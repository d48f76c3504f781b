"""The engine's chunk queries and merges, as `explain` prints them, in PostgreSQL's words.

What is written anew, since PostgreSQL would refuse it or, worse, answer otherwise:
1. each item is called c1, c2 .., which the order speaks of;
2. the area functions, which speak of the first table, and 3. chord2 are expressions of x, y and z;
4. tables have names of ours, whatever the query calls them; 5. columns are in quotes, since names are bytes here;
6. arithmetic whose bound passes 64 bits is done in numeric;
7. NULL stands before all numbers going up and after all going down;
8. an average is in ten-thousandths, halves away from zero; 9. a count over no pieces is 0.
"""
import dataclasses
import re

from skyq_lib.columns import MOST
from skyq_lib.errors import SkyqError

TOKEN = re.compile(r"\s*([A-Za-z_][A-Za-z0-9_]*|\d+|<=|>=|<>|!=|[-<>=,()*+./;])")
LARGEST, COORDINATE = 2**63 - 1, 2**28 + 16
COMPARISONS = ("=", "<>", "<", "<=", ">", ">=")
AGGREGATES = ("COUNT", "SUM", "MIN", "MAX", "AVG")


@dataclasses.dataclass
class Value:
    """An expression; `bound` is the largest size of its values, None if it is numeric, which has no bound."""
    text: str
    bound: int | None


def quoted(name):
    return '"' + name.replace('"', '""') + '"'


def bound_of(name):
    """The largest size that a column's values may have."""
    return LARGEST if name == "objectId" else COORDINATE if name in ("x", "y", "z") else MOST


class Reader:
    """Reads a printed query; each rule takes its tokens and gives PostgreSQL's text."""

    def __init__(self, text):
        self.tokens, self.at = [match[1] for match in TOKEN.finditer(text)], 0
        if "".join(self.tokens) != re.sub(r"\s", "", text):
            raise SkyqError("the program explains the query in words that are not known here")

    def peek(self, ahead=0):
        return self.tokens[self.at + ahead] if self.at + ahead < len(self.tokens) else ""

    def take(self, *wanted):
        """The next token, which is one of those wanted."""
        token = self.peek()
        if not token or wanted and token not in wanted:
            raise SkyqError(f"the program explains the query in words that are not known here, at {token or 'their end'}")
        self.at += 1
        return token

    def took(self, *wanted):
        """Takes the next tokens if they are these; whether it did."""
        if tuple(self.tokens[self.at : self.at + len(wanted)]) != wanted:
            return False
        self.at += len(wanted)
        return True

    def listed(self, rule, sign=","):
        found = [rule()]
        while self.took(sign):
            found.append(rule())
        return found

    # -- values

    def column(self):
        """A column, which a subclass knows."""
        raise NotImplementedError

    def value(self):
        found = self.product()
        while self.peek() in ("+", "-"):
            found = combined(found, self.take(), self.product())
        return found

    def product(self):
        found = self.factor()
        while self.took("*"):
            found = combined(found, "*", self.factor())
        return found

    def factor(self):
        if self.took("-"):
            found = self.factor()
            return Value(f"(- {found.text})", found.bound)
        if self.took("("):
            found = self.value()
            self.take(")")
            return found
        if self.peek().isdigit():
            number = int(self.take())
            return Value(f"{number}::bigint", number)
        return self.column()

    def number(self):
        """A whole number with its sign."""
        sign = -1 if self.took("-") else 1
        return sign * int(self.take())

    # -- orders

    def order(self):
        """The keys of an ORDER BY, NULL before all numbers or, going down, after them."""
        self.take("ORDER")
        self.take("BY")
        return ", ".join(self.listed(self.order_key))

    def order_key(self):
        text = self.item()
        return f"{text} DESC NULLS LAST" if self.took("DESC") else f"{text} ASC NULLS FIRST"

    def item(self):
        raise NotImplementedError


def combined(left, sign, right):
    """A sum, a difference or a product; in numeric where it may pass 64 bits."""
    if left.bound is None or right.bound is None:
        return Value(f"({left.text} {sign} {right.text})", None)
    bound = left.bound * right.bound if sign == "*" else left.bound + right.bound
    if bound <= LARGEST:
        return Value(f"({left.text} {sign} {right.text})", bound)
    return Value(f"({left.text}::numeric {sign} {right.text})", None)
