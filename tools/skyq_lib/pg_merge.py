"""What `explain` prints as a merge, as PostgreSQL's statement over a table of pieces."""
from skyq_lib.pg_text import AGGREGATES, Reader, Value

AVERAGE = "(sign({0}) * div(2 * abs({0}) * 10000 + {1}, nullif(2 * {1}, 0)) * 0.0001)"
MOST_TOTAL = 2**100


class Merge(Reader):
    """How pieces merge, over a table of them whose columns c1, c2 .. are numeric. `counts` are those of the chunk query."""

    def __init__(self, text, chunk, table):
        super().__init__(text)
        self.counts, self.totals, self.keys = chunk.counts, [], []
        self.take("SELECT")
        self.items = self.listed(self.item)
        for word in ("FROM", "pieces"):
            self.take(word)
        if self.took("GROUP", "BY"):
            self.keys = self.listed(self.take)
        totals = [name for name in dict.fromkeys(self.totals) if int(name[1:]) in chunk.sums]
        order = self.order() if self.peek() == "ORDER" else None
        limit = self.number() if self.took("LIMIT") else None
        group = f" GROUP BY {', '.join(self.keys)}" if self.keys else ""
        self.sql = (f"SELECT {', '.join(self.items)} FROM {table}{group}" + (f" ORDER BY {order}" if order else "")
                    + (f" LIMIT {limit}" if limit is not None else ""))
        self.too_large = self.too_large_sql(totals, table, group)

    def column(self):
        return Value(self.take(), None)

    def item(self):
        """A merged item: an aggregate of pieces, an average, or keys."""
        word = self.peek()
        if word not in AGGREGATES or self.peek(1) != "(":
            return self.value().text
        found, name = self.aggregate()
        if self.took("/"):
            return AVERAGE.format(found, self.aggregate()[0])
        return f"coalesce({found}, 0)" if word == "SUM" and int(name[1:]) in self.counts else found

    def aggregate(self):
        word = self.take(*AGGREGATES)
        self.take("(")
        name = self.take()
        self.take(")")
        if word == "SUM":
            self.totals.append(name)
        return f"{word}({name})", name

    def too_large_sql(self, totals, table, group):
        """The statement that finds the first total outside of 2^100, by ascending keys and then by items; None without totals."""
        if not totals:
            return None
        keys = "".join(f"{key}, " for key in self.keys)
        parts = [f"SELECT {keys}{number} AS item, SUM({name}) AS total FROM {table}{group}" for number, name in enumerate(totals)]
        order = "".join(f"{key} NULLS FIRST, " for key in self.keys)
        return f"SELECT total FROM ({' UNION ALL '.join(parts)}) AS totals WHERE abs(total) > {MOST_TOTAL} ORDER BY {order}item LIMIT 1"
