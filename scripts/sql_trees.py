"""The parts of a query's tree: each prints itself, and knows what it is worth on a pick of rows.

Written from the rules in docs/FORMATS.md alone. A pick is a pair of rows, each a mapping of the names of columns to values;
of one table the second is None. `sql_texts.py` reads a tree, `flat_answers.py` says what it means over a table.
"""
import math

import compare_places as places

COMPARISONS = {
    "=": lambda a, b: a == b,
    "<>": lambda a, b: a != b,
    "<": lambda a, b: a < b,
    "<=": lambda a, b: a <= b,
    ">": lambda a, b: a > b,
    ">=": lambda a, b: a >= b,
}
# how many numbers an area test takes
ARGUMENTS = {"AREA_BAND": 2, "AREA_CAP": 4, "AREA_BOX": 6}
# the largest number that a query computes, and the largest sizes of an id, of a coordinate and of an extra value
MOST, IDS, COORDINATE, FURTHER = 1 << 100, (1 << 63) - 1, 268435472, 1 << 50
# the largest part of a direction and of a cap's centre, and the largest square of a cap's radius
PART, SQUARE = 1 << 29, 1 << 62


class Refused(Exception):
    """Why a query is not answered; the line of its block."""

    def __init__(self, why):
        super().__init__(f"refused: {why}")


# ---- expressions


class Int:
    def __init__(self, n):
        self.n = n

    def printed(self, named):
        return str(self.n)

    def worth(self, pick):
        return self.n

    def bound(self, size):
        return self.n

    def columns(self):
        return []


class Col:
    def __init__(self, table, name, at, end):
        self.table, self.name, self.at, self.end = table, name, at, end
        self.second = False

    def printed(self, named):
        return named(self)

    def written(self):
        return f"{self.table}.{self.name}" if self.table else self.name

    def worth(self, pick):
        return pick[1 if self.second else 0][self.name]

    def bound(self, size):
        return size(self)

    def columns(self):
        return [self]


class Bracket:
    def __init__(self, inner):
        self.inner = inner

    def printed(self, named):
        return f"({self.inner.printed(named)})"

    def worth(self, pick):
        return self.inner.worth(pick)

    def bound(self, size):
        return self.inner.bound(size)

    def columns(self):
        return self.inner.columns()


class Expr:
    """A sum: a list of products, each with its sign; a product is a list of factors, each with whether a minus is before it."""

    def __init__(self, prods):
        self.prods = prods

    def alone(self):
        """The one atom that this is, without a minus; or None."""
        if len(self.prods) == 1 and len(self.prods[0][1]) == 1 and not self.prods[0][1][0][0]:
            return self.prods[0][1][0][1]
        return None

    def printed(self, named=Col.written):
        out = ""
        for sign, factors in self.prods:
            out += (sign if out else "") + "*".join(("-" if minus else "") + atom.printed(named) for minus, atom in factors)
        return out

    def worth(self, pick):
        values = [product_of(factors, pick) for _, factors in self.prods]
        if None in values:
            return None
        return sum(-value if sign == "-" else value for (sign, _), value in zip(self.prods, values))

    def bound(self, size):
        """The bound of the whole, by the largest size of each column; raises if that of a prefix of a sum or product is too large."""
        total = 0
        for _, factors in self.prods:
            product = 1
            for _, atom in factors:
                product = fit(product * atom.bound(size))
            total = fit(total + product)
        return total

    def columns(self):
        return [col for _, factors in self.prods for _, atom in factors for col in atom.columns()]


def product_of(factors, pick):
    values = [atom.worth(pick) for _, atom in factors]
    return None if None in values else math.prod(-value if minus else value for (minus, _), value in zip(factors, values))


def fit(bound):
    if bound > MOST:
        raise Refused("expression too wide")
    return bound


# ---- conditions


def all_of(truths):
    return False if False in truths else None if None in truths else True


def any_of(truths):
    return True if True in truths else None if None in truths else False


def turned(truth, turn=True):
    return truth if truth is None or not turn else not truth


class Cond:
    """An OR of ANDs of tests, each with whether a NOT is before it."""

    def __init__(self, conjs):
        self.conjs = conjs

    def printed(self):
        return " OR ".join(" AND ".join("NOT " * no + test.printed() for no, test in conj) for conj in self.conjs)

    def truth(self, pick):
        return any_of([all_of([turned(test.truth(pick), no) for no, test in conj]) for conj in self.conjs])

    def tests(self):
        return [each for conj in self.conjs for _, test in conj for each in test.tests()]

    def top(self):
        """The tests with nothing but brackets and AND around them."""
        found = []
        if len(self.conjs) == 1:
            for no, test in self.conjs[0]:
                found += [] if no else test.inner.top() if isinstance(test, Grouped) else [test]
        return found


class Test:
    """A test that has no condition inside; its expressions."""

    exprs = ()

    def tests(self):
        return [self]


class Grouped(Test):
    def __init__(self, inner):
        self.inner = inner

    def printed(self):
        return f"({self.inner.printed()})"

    def truth(self, pick):
        return self.inner.truth(pick)

    def tests(self):
        return self.inner.tests()


class Compare(Test):
    def __init__(self, left, op, right):
        self.left, self.op, self.right = left, op, right
        self.exprs = (left, right)

    def printed(self):
        return self.left.printed() + self.op + self.right.printed()

    def truth(self, pick):
        return compared(self.op, self.left.worth(pick), self.right.worth(pick))


def compared(op, a, b):
    return None if a is None or b is None else COMPARISONS[op](a, b)


class Between(Test):
    def __init__(self, value, no, low, high):
        self.value, self.no, self.low, self.high = value, no, low, high
        self.exprs = (value, low, high)

    def printed(self):
        value, low, high = (expr.printed() for expr in self.exprs)
        return f"{value} {'NOT ' * self.no}BETWEEN {low} AND {high}"

    def truth(self, pick):
        value, low, high = (expr.worth(pick) for expr in self.exprs)
        return turned(all_of([compared("<=", low, value), compared("<=", value, high)]), self.no)


class Among(Test):
    def __init__(self, value, no, ints):
        self.value, self.no, self.ints = value, no, ints
        self.exprs = (value,)

    def printed(self):
        return f"{self.value.printed()} {'NOT ' * self.no}IN ({','.join(map(str, self.ints))})"

    def truth(self, pick):
        value = self.value.worth(pick)
        return None if value is None else (value in self.ints) != self.no


class IsNull(Test):
    def __init__(self, value, no):
        self.value, self.no = value, no
        self.exprs = (value,)

    def printed(self):
        return f"{self.value.printed()} IS {'NOT ' * self.no}NULL"

    def truth(self, pick):
        return (self.value.worth(pick) is None) != self.no


class Area(Test):
    """A test of the first row's position."""

    def __init__(self, word, ints):
        self.word, self.kind, self.ints = word, word.kind, ints

    def printed(self):
        return f"{self.kind.lower()}({','.join(map(str, self.ints))})"

    def is_formed(self):
        """It has as many arguments as it takes, and these are in their ranges."""
        if len(self.ints) != ARGUMENTS[self.kind]:
            return False
        if self.kind == "AREA_BAND":
            return True
        if self.kind == "AREA_CAP":
            return max(map(abs, self.ints[:3])) <= PART and 0 <= self.ints[3] <= SQUARE
        return max(map(abs, self.ints[2:])) <= PART and places.past(self.ints[2:4], self.ints[4:]) > 0

    def truth(self, pick):
        p = position(pick[0])
        if self.kind == "AREA_CAP":
            return squared_chord(self.ints[:3], p) <= self.ints[3]
        is_high = self.ints[0] <= p[2] <= self.ints[1]
        if self.kind == "AREA_BAND":
            return is_high
        a, b = self.ints[2:4], self.ints[4:]
        return is_high and p[:2] != (0, 0) and places.past(a, p) >= 0 and places.past(b, p) <= 0

    def may_meet(self, chunk):
        """The chunk may hold rows that meet it, by the test of a chunk."""
        if self.kind == "AREA_CAP":
            return cap_meets(self.ints[:3], self.ints[3], chunk)
        if not (self.ints[0] <= self.ints[1] and chunk.low <= self.ints[1] and self.ints[0] <= chunk.high):
            return False
        return self.kind == "AREA_BAND" or chunk.sides is None or box_meets(self.ints[2:4], self.ints[4:], *chunk.sides)


class Chord(Test):
    """The one test of two rows: their squared chord is within the reach."""

    def __init__(self, left, right, op, n):
        self.left, self.right, self.op, self.n = left, right, op, n
        self.reach = n if op == "<=" else n - 1

    def printed(self):
        return f"chord2({self.left.text},{self.right.text}){self.op}{self.n}"

    def truth(self, pick):
        return squared_chord(*map(position, pick)) <= self.reach


def position(row):
    return row["x"], row["y"], row["z"]


def squared_chord(p, q):
    return sum((a - b) ** 2 for a, b in zip(p, q))


def is_close(d, p, n):
    """The position is within the root of n of the line of the direction."""
    return places.past(d, p) ** 2 <= (d[0] ** 2 + d[1] ** 2) * n


def cap_meets(centre, n, chunk):
    z = centre[2]
    if not (chunk.low <= z or (chunk.low - z) ** 2 <= n) or not (z <= chunk.high or (z - chunk.high) ** 2 <= n):
        return False
    if chunk.sides is None:
        return True
    first, second = chunk.sides
    by_first = places.past(first, centre) >= 0 or is_close(first, centre, n)
    return by_first and (places.past(second, centre) < 0 or is_close(second, centre, n))


def box_meets(a, b, first, second):
    """One begins inside the other, or the other inside the one."""
    return (places.past(first, a) >= 0 >= places.past(second, a)) or (places.past(a, first) >= 0 >= places.past(b, first))


# ---- queries


class Item:
    """An item: the word of its aggregate, or None; its expression, or None for COUNT(*); and its alias, or None."""

    def __init__(self, word, expr, alias):
        self.word, self.expr, self.alias = word, expr, alias

    def printed(self):
        inner = self.expr.printed() if self.expr else "*"
        return f"{self.word}({inner})" if self.word else inner

    def heading(self):
        return self.alias or self.printed()


class Query:
    """A tree: items (None for a star, whose token is kept), tables, condition, keys, order and limit."""

    def __init__(self):
        self.items, self.star, self.tables, self.cond = [], None, [], None
        self.group, self.order, self.down, self.limit = [], None, False, None
