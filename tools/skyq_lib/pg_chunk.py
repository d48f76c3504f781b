"""What `explain` prints as a chunk query, as PostgreSQL's statement on the tables of a chunk."""
import math

from skyq_lib.errors import SkyqError
from skyq_lib.pg_text import AGGREGATES, COMPARISONS, Reader, Value, bound_of, quoted

CLAUSES = ("FROM", "WHERE", "GROUP", "ORDER", "LIMIT")


class ChunkQuery(Reader):
    """What runs on a chunk. `counts` and `sums` are the numbers, from 1, of the items that are a COUNT or a SUM."""

    def __init__(self, text):
        super().__init__(text)
        self.counts, self.sums, self.keys = set(), set(), []
        self.tables = self.called()
        self.is_join = len(self.tables) == 2
        self.take("SELECT")
        self.items = [self.item_of_chunk(1)]
        while self.took(","):
            self.items.append(self.item_of_chunk(len(self.items) + 1))
        self.take("FROM")
        while self.peek() not in ("", *CLAUSES):
            self.take()
        self.where = self.condition() if self.took("WHERE") else None
        if self.took("GROUP", "BY"):
            self.keys = [value.text for value in self.listed(self.column)]
        self.is_grouped = bool(self.keys or self.counts or self.sums)
        self.order_text = self.order() if self.peek() == "ORDER" else None
        self.limit = self.number() if self.took("LIMIT") else None
        if self.peek():
            self.take("the end")

    def called(self):
        """What the query calls its tables: their aliases, or the table's own name."""
        at = self.tokens.index("FROM") + 1
        end = next((k for k in range(at, len(self.tokens)) if self.tokens[k] in CLAUSES), len(self.tokens))
        parts = [part.split() for part in " ".join(self.tokens[at:end]).split(",")]
        return [part[1] if len(part) > 1 else "Object" for part in parts]

    def column(self):
        name, table = self.take(), 1
        if self.took("."):
            table, name = self.tables.index(name) + 1, self.take()
        return Value(f"t{table}.{quoted(name)}", bound_of(name))

    def item(self):
        return self.take()          # of a chunk's order: the name of an item, as c4

    def item_of_chunk(self, number):
        """The item of a number: a value or an aggregate."""
        word = self.peek()
        if word not in AGGREGATES or self.peek(1) != "(":
            return self.value().text
        self.at += 2
        inner = "*" if word == "COUNT" and self.took("*") else self.value().text
        self.take(")")
        (self.counts if word == "COUNT" else self.sums if word == "SUM" else set()).add(number)
        return f"{word}({inner})"

    # -- conditions

    def condition(self):
        return "(" + " OR ".join(self.listed(self.conjunction, "OR")) + ")"

    def conjunction(self):
        return "(" + " AND ".join(self.listed(self.negation, "AND")) + ")"

    def negation(self):
        return f"(NOT {self.negation()})" if self.took("NOT") else self.predicate()

    def predicate(self):
        word = self.peek()
        if word == "chord2":
            return self.near()
        if word in ("area_band", "area_cap", "area_box"):
            return self.area()
        if word == "(":
            found = self.bracketed()
            if found:
                return found
        return self.comparison()

    def bracketed(self):
        """A condition in brackets; None if they hold a value."""
        before = self.at
        try:
            self.take("(")
            found = self.condition()
            self.take(")")
        except SkyqError:
            found = None
        if found is None or self.peek() in (*COMPARISONS, "+", "-", "*", "BETWEEN", "IN", "IS"):
            self.at = before
            return None
        return found

    def comparison(self):
        left = self.value().text
        if self.took("IS"):
            no = "NOT " if self.took("NOT") else ""
            self.take("NULL")
            return f"({left} IS {no}NULL)"
        no = "NOT " if self.took("NOT") else ""
        if self.took("BETWEEN"):
            low = self.value().text
            self.take("AND")
            return f"({left} {no}BETWEEN {low} AND {self.value().text})"
        if self.took("IN"):
            return f"({left} {no}IN ({', '.join(str(number) for number in self.numbers())}))"
        return f"({left} {self.take(*COMPARISONS)} {self.value().text})"

    def numbers(self):
        """Whole numbers in brackets."""
        self.take("(")
        found = self.listed(self.number)
        self.take(")")
        return found

    def near(self):
        """A limit of chord2 as an expression, after the range of heights that it implies, for which the near rows have an index."""
        self.at += 2
        a = self.tables.index(self.take()) + 1
        self.take(",")
        b = self.tables.index(self.take()) + 1
        self.take(")")
        sign, limit = self.take("<", "<="), self.number()
        reach = math.isqrt(max(0, limit))
        chord = squares([(f"t{a}.{axis}", f"t{b}.{axis}") for axis in "xyz"])
        one, other = min(a, b), max(a, b)
        return f"(t{other}.z BETWEEN t{one}.z - {reach} AND t{one}.z + {reach} AND {chord} {sign} {limit}::bigint)"

    def area(self):
        word = self.take()
        given = [f"{number}::bigint" for number in self.parsed_numbers()]
        if word == "area_band":
            return f"(t1.z BETWEEN {given[0]} AND {given[1]})"
        if word == "area_cap":
            return f"({squares(list(zip(('t1.x', 't1.y', 't1.z'), given)))} <= {given[3]})"
        low, high, ax, ay, bx, by = given
        return (f"(t1.z BETWEEN {low} AND {high} AND {ax} * t1.y - {ay} * t1.x >= 0 AND {bx} * t1.y - {by} * t1.x <= 0"
                " AND (t1.x <> 0 OR t1.y <> 0))")

    def parsed_numbers(self):
        return [f"({number})" for number in self.numbers()]

    # -- the statement

    def sql(self, own, near, sub):
        """The statement on a chunk: own is its table, near that of its subchunks with their near rows, sub the column of subchunks."""
        items = ", ".join(f"{text} AS c{number}" for number, text in enumerate(self.items, 1))
        tables = f"{own} AS t1" + (f", {near} AS t2" if self.is_join else "")
        conditions = ([f"t1.{sub} = t2.{sub}"] if self.is_join else []) + ([self.where] if self.where else [])
        return (f"SELECT {items} FROM {tables}" + (f" WHERE {' AND '.join(conditions)}" if conditions else "")
                + (f" GROUP BY {', '.join(self.keys)}" if self.keys else "") + (f" ORDER BY {self.order_text}" if self.order_text else "")
                + (f" LIMIT {self.limit}" if self.limit is not None else ""))


def squares(pairs):
    """The sum of the squared differences of pairs of bigints, which stays below 2^63 for coordinates."""
    return " + ".join(f"({a} - {b}) * ({a} - {b})" for a, b in pairs)
