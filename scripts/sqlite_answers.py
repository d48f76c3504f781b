"""A third opinion of what a query over objects and their sources answers: that of SQLite, by python3's own module.

SQLite computes with 64 bits, so a query is asked only if no value of it can be wider. An area test is written out as a condition on
x, y and z; all other parts are written with brackets around each, from the tree, so nothing rests on which operator binds first.
"""
import sqlite3

from sql_trees import IDS, Among, Area, Between, Bracket, Col, Compare, Grouped, Int, IsNull, Refused

# the largest number of SQLite is that of an id
MOST = IDS


class Tables:
    """The two tables of a world, in memory."""

    def __init__(self, world):
        self.base = sqlite3.connect(":memory:")
        for name, columns, rows in [("Object", world.names, world.rows), ("Source", world.source_names, world.sources)]:
            self.base.execute(f"CREATE TABLE {name} ({','.join(f'{quoted(column)} INTEGER' for column in columns)})")
            self.base.executemany(f"INSERT INTO {name} VALUES ({','.join('?' * len(columns))})", rows)

    def rows(self, bound):
        """The rows of a query that binds, or None if a value of it may be too wide."""
        text = asked(bound)
        return text and [list(row) for row in self.base.execute(text)]


def quoted(name):
    return f'"{name}"'


def asked(bound):
    """The query as SQLite reads it; None if a value of it may be too wide."""
    try:
        return "".join(clauses(bound, Written(bound)))
    except Refused:
        return None


def clauses(bound, written):
    (_, first), (_, second) = bound.query.tables
    yield f"SELECT {','.join(map(written.expr, bound.selected()))} FROM Object AS {quoted(first)},Source AS {quoted(second)}"
    yield f" WHERE {written.cond(bound.query.cond)} ORDER BY "
    if bound.query.order:
        key = bound.alias_item.expr if bound.alias_item else bound.query.order
        # +0, since a number alone would be the place of an item
        yield f"{written.expr(key)}+0{' DESC' * bound.query.down},"
    yield f"{quoted(first)}.objectId,{quoted(second)}.sourceId"
    yield "" if bound.query.limit is None else f" LIMIT {bound.query.limit}"


class Written:
    """Writes the parts of a query's tree."""

    def __init__(self, bound):
        self.bound, self.first = bound, bound.query.tables[0][1]

    def expr(self, expr):
        """A column, or a sum of no value beyond 64 bits."""
        if isinstance(expr, Col):
            return self.atom(expr)
        if expr.bound(self.bound.size) > MOST or any(self.product_bound(factors) > MOST for _, factors in expr.prods):
            raise Refused("a value of more than 64 bits")
        return "(0" + "".join(sign + self.product(factors) for sign, factors in expr.prods) + ")"

    def product_bound(self, factors):
        """The largest size that a prefix of a product may have."""
        size, most = 1, 0
        for _, atom in factors:
            size *= atom.bound(self.bound.size)
            most = max(most, size)
        return most

    def product(self, factors):
        return "(1" + "".join(f"*({'-' * minus}{self.atom(atom)})" for minus, atom in factors) + ")"

    def atom(self, atom):
        if isinstance(atom, Int):
            return str(atom.n)
        return self.expr(atom.inner) if isinstance(atom, Bracket) else f"{quoted(atom.table)}.{quoted(atom.name)}"

    def cond(self, cond):
        return "(" + " OR ".join("(" + " AND ".join(map(self.neg, conj)) + ")" for conj in cond.conjs) + ")"

    def neg(self, neg):
        return f"{'NOT ' * neg[0]}({self.test(neg[1])})"

    def test(self, test):
        if isinstance(test, Grouped):
            return self.cond(test.inner)
        if isinstance(test, Area):
            return self.area(test)
        no, parts = "NOT " * getattr(test, "no", False), [self.expr(expr) for expr in test.exprs]
        if isinstance(test, Compare):
            return f"{parts[0]}{test.op}{parts[1]}"
        if isinstance(test, Between):
            return f"{parts[0]} {no}BETWEEN {parts[1]} AND {parts[2]}"
        if isinstance(test, Among):
            return f"{parts[0]} {no}IN ({','.join(map(str, test.ints))})"
        assert isinstance(test, IsNull)
        return f"{parts[0]} IS {no}NULL"

    def area(self, area):
        """The condition on the object's position; each value is below 2^62."""
        x, y, z = (f"{quoted(self.first)}.{name}" for name in "xyz")
        ints = area.ints
        if area.kind == "AREA_CAP":
            squares = (f"({at}-({part}))*({at}-({part}))" for at, part in zip((x, y, z), ints))
            return f"{'+'.join(squares)}<={ints[3]}"
        band = f"{z}>={ints[0]} AND {z}<={ints[1]}"
        if area.kind == "AREA_BAND":
            return band
        a, b = (f"({dx})*{y}-({dy})*{x}" for dx, dy in (ints[2:4], ints[4:]))
        return f"{band} AND {a}>=0 AND {b}<=0 AND NOT ({x}=0 AND {y}=0)"
