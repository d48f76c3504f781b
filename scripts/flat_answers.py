"""What the text of a query means over a flat table, computed the dull way: which refusal it has, what it answers, and how it
is explained.

Written from the rules in docs/FORMATS.md alone: names are resolved one by one, and conditions are worked out on each row, or
each pair of rows, of one list. There is no column, piece or table of overlaps in it; a chunk is a region that is tested, and
only plans, explanations and reports speak of chunks. `compare_answers.py` compares the program with it.
"""
import collections

from sql_texts import read
from sql_trees import COORDINATE, FURTHER, IDS, MOST, Among, Area, Chord, Col, Compare, Int, Item, Refused


# ---- binding


class Binder:
    """The checks of a tree over the names of the table's columns, in their order; then the query is bound."""

    known_tables = ("Object",)

    def __init__(self, line, query, schema):
        self.line, self.query, self.schema = line, query, schema
        self.qualifiers = [alias or name.text for name, alias in query.tables]
        self.is_join = len(query.tables) == 2
        self.is_grouping = bool(query.group) or any(item.word for item in query.items)
        self.tests = query.cond.tests() if query.cond else []
        self.top = query.cond.top() if query.cond else []
        self.chords = [test for test in self.tests if isinstance(test, Chord)]
        self.areas = [test for test in self.tests if isinstance(test, Area)]

    def check(self):
        self.check_names()
        if not self.is_join:
            self.check_grouping()
        self.check_join()
        self.check_areas()
        for expr in self.exprs():
            expr.bound(self.size)
        self.check_order()
        for col in [*self.columns(), *([self.query.order] if self.query.order else [])]:
            col.second = self.is_join and col.table == self.qualifiers[1]

    def exprs(self):
        found = [item.expr for item in self.query.items if item.expr]
        return found + [expr for test in self.tests for expr in test.exprs]

    def columns(self):
        """All columns but the order key."""
        return [col for expr in self.exprs() for col in expr.columns()] + self.query.group

    def is_known(self, col):
        return col.name in self.schema and (col.table is None or col.table in self.qualifiers)

    def size(self, col):
        """The largest size of a column's values."""
        at = self.schema.index(col.name)
        return IDS if at == 0 else COORDINATE if at < 4 else FURTHER

    def check_names(self):
        unknown = [(name.at, name.end) for name, _ in self.query.tables if name.text not in self.known_tables]
        unknown += [(col.at, col.end) for col in self.columns() if not self.is_known(col)]
        named = [name for chord in self.chords for name in (chord.left, chord.right)]
        unknown += [(name.at, name.end) for name in named if name.text not in self.qualifiers]
        if unknown:
            raise Refused(f"unknown name {self.text(*min(unknown))}")

    def text(self, at, end):
        return self.line[at:end]

    def check_grouping(self):
        if not self.is_grouping:
            return
        if self.query.star:
            raise Refused("* is not grouped")
        keys = {col.name for col in self.query.group}
        for item in self.query.items:
            for col in [] if item.word else item.expr.columns():
                if col.name not in keys:
                    raise Refused(f"{self.text(col.at, col.end)} is not grouped")

    def check_join(self):
        aliases = [alias for _, alias in self.query.tables]
        if not self.is_join:
            is_formed = not self.chords
        elif None in aliases or aliases[0] == aliases[1] or self.is_grouping or len(self.chords) != 1:
            is_formed = False
        else:
            chord = self.chords[0]
            is_formed = chord in self.top and {chord.left.text, chord.right.text} == set(aliases)
            is_formed = is_formed and all(col.table for col in self.columns())
        if not is_formed:
            raise Refused("join form")

    def check_areas(self):
        for area in sorted(self.areas, key=lambda area: area.word.at):
            if area not in self.top or not area.is_formed():
                raise Refused(f"area form {area.word.text}")

    def check_order(self):
        key = self.query.order
        if key is None or (key.table is None and key.name in [item.alias for item in self.query.items]):
            return
        is_column = self.is_known(key) and (not self.is_join or key.table is not None)
        if not is_column or (self.is_grouping and key.name not in [col.name for col in self.query.group]):
            raise Refused(f"unknown order key {self.text(key.at, key.end)}")


# ---- answers


class Average:
    """A mean in ten-thousandths, rounded to the nearest, halves away from zero."""

    def __init__(self, total, count):
        size = (2 * abs(total) * 10000 + count) // (2 * count)
        self.parts = size if total >= 0 else -size

    def __str__(self):
        return f"{'-' if self.parts < 0 else ''}{abs(self.parts) // 10000}.{abs(self.parts) % 10000:04}"


def written(value):
    return "NULL" if value is None else str(value)


def rank(value, down=False):
    """A value as orders see it: NULL before all numbers, or after them if the order is descending."""
    if value is None:
        return (1, 0) if down else (0, 0)
    size = value.parts if isinstance(value, Average) else value
    return (0, -size) if down else (1, size)


class Bound(Binder):
    """A query that binds, over a world: an object with `names`, `rows`, `chunks` and `chunk_of`."""

    def __init__(self, line, world):
        super().__init__(line, read(line), world.names)
        self.world = world
        self.check()
        self.alias_item = self.found_alias()

    def found_alias(self):
        """The item whose alias the order key is, or None."""
        key = self.query.order
        named = [item for item in self.query.items if key and key.table is None and item.alias == key.name]
        return named[0] if named else None

    # -- the plan

    def id_lists(self):
        """The lists of ids that a row has to be in, one for each test of ids at the top of WHERE."""
        for test in self.top:
            if isinstance(test, Compare) and test.op == "=" and self.is_id(test.left) and isinstance(test.right.alone(), Int):
                yield [test.right.alone().n]
            if isinstance(test, Among) and not test.no and self.is_id(test.value):
                yield test.ints

    def is_id(self, expr):
        atom = expr.alone()
        return isinstance(atom, Col) and atom.name == "objectId" and not atom.second

    def plan(self):
        chunks = self.world.chunks
        kept = {c for c in self.world.chunk_of.values() if all(area.may_meet(chunks[c]) for area in self.areas)}
        for ids in self.id_lists():
            kept &= {self.world.chunk_of[n] for n in ids if n in self.world.chunk_of}
        return sorted(kept)

    def check_radius(self):
        if self.is_join:
            least = min(self.world.chunks[chunk].overlap for chunk in self.plan() or self.world.chunks)
            if self.chords[0].reach > least**2:
                raise Refused(f"radius {self.chords[0].reach} above {least**2}")

    # -- rows and pairs

    def picks(self):
        rows = [dict(zip(self.world.names, row)) for row in self.world.rows]
        every = ((a, b) for a in rows for b in rows) if self.is_join else ((a, None) for a in rows)
        return [pick for pick in every if self.query.cond is None or self.query.cond.truth(pick) is True]

    def headings(self):
        if not self.query.star:
            return [item.heading() for item in self.query.items]
        return [col.written() for col in self.starred()]

    def starred(self):
        """The columns of a star."""
        if not self.is_join:
            return [Col(None, name, 0, 0) for name in self.schema]
        found = [Col(table, name, 0, 0) for table in self.qualifiers for name in self.schema]
        for place, col in enumerate(found):
            col.second = place >= len(self.schema)
        return found

    def selected(self):
        """The expressions of the items."""
        return self.starred() if self.query.star else [item.expr for item in self.query.items]

    def rows(self):
        items, key = self.selected(), self.alias_item.expr if self.alias_item else self.query.order
        found = self.picks()
        # sorted is stable, and the picks are in the order of their ids
        if key:
            found = sorted(found, key=lambda pick: rank(key.worth(pick), self.query.down))
        return [[item.worth(pick) for item in items] for pick in found[: self.query.limit]]

    # -- groups

    def groups(self):
        """The groups by ascending key, each with its picks; without keys there is one, empty or not."""
        found = {} if self.query.group else {(): []}
        for pick in self.picks():
            found.setdefault(tuple(key.worth(pick) for key in self.query.group), []).append(pick)
        return [found[key] for key in sorted(found, key=lambda key: [rank(value) for value in key])]

    def grouped(self):
        groups = self.groups()
        for picks in groups:
            for item in self.query.items:
                total = sum(values_of(item.expr, picks)) if item.word in ("SUM", "AVG") else 0
                if abs(total) > MOST:
                    raise Refused(f"total {total} out of range")
        if self.query.order:
            item = self.alias_item or Item(None, self.query.order, None)
            groups = sorted(groups, key=lambda picks: rank(of_group(item, picks), self.query.down))
        return [[of_group(item, picks) for item in self.query.items] for picks in groups[: self.query.limit]]

    def block(self):
        """The lines of the answer."""
        self.check_radius()
        lines = self.grouped() if self.is_grouping else self.rows()
        told = [",".join(written(value) for value in line) for line in lines]
        return [",".join(self.headings()), *told, f"{len(told)} rows, {len(self.plan())} chunks"]


def values_of(expr, picks):
    values = [expr.worth(pick) for pick in picks]
    return [value for value in values if value is not None]


def of_group(item, picks):
    """What an item is worth on the picks of a group."""
    if item.word is None:
        return item.expr.worth(picks[0] if picks else (None, None))
    if item.expr is None:
        return len(picks)
    values = values_of(item.expr, picks)
    if item.word == "COUNT":
        return len(values)
    if not values:
        return None
    return {"SUM": sum, "MIN": min, "MAX": max, "AVG": lambda values: Average(sum(values), len(values))}[item.word](values)


# ---- explanations


class Explained(Bound):
    """A query that binds, with how it is cut in two."""

    def aggregates(self):
        """For each aggregate what a chunk gives for it, and how the merge makes it of these, by their places from 1."""
        place = len(self.query.group)
        for item in self.query.items:
            if item.word is None:
                yield [], item.expr.printed(self.key_place)
                continue
            parts = [item.printed()]
            if item.word == "AVG":
                parts = [f"SUM({item.expr.printed()})", f"COUNT({item.expr.printed()})"]
                yield parts, f"SUM(c{place + 1})/SUM(c{place + 2})"
            else:
                yield parts, f"{item.word if item.word in ('MIN', 'MAX') else 'SUM'}(c{place + 1})"
            place += len(parts)

    def key_place(self, col):
        return f"c{1 + [key.name for key in self.query.group].index(col.name)}"

    def ids(self):
        """The columns of the ids that a chunk query adds."""
        return [f"{table}.objectId" for table in self.qualifiers] if self.is_join else ["objectId"]

    def halves(self):
        """The items of the chunk query, those of the merge, and the parts of its order."""
        key = self.query.order
        if self.is_grouping:
            made = list(self.aggregates())
            items = [col.written() for col in self.query.group] + [part for parts, _ in made for part in parts]
            merged = [text for _, text in made]
            by = [f"c{place}" for place in range(1, len(self.query.group) + 1)]
            first = merged[self.query.items.index(self.alias_item)] if self.alias_item else key and self.key_place(key)
        else:
            items = [expr.printed(Col.written) for expr in self.selected()]
            merged = [f"c{place}" for place in range(1, len(items) + 1)]
            items += self.ids()
            by = [f"c{place}" for place in range(len(merged) + 1, len(items) + 1)]
            items += [(self.alias_item.expr if self.alias_item else key).printed(Col.written)] if key else []
            first = f"c{len(items)}"
        return items, merged, ([first + " DESC" * self.query.down] if key else []) + by

    def tables(self):
        if self.is_join:
            return f"Object_c_s {self.qualifiers[0]},Object_c_s_near {self.qualifiers[1]}"
        alias = self.query.tables[0][1]
        return f"Object_c {alias}" if alias else "Object_c"

    def lines(self):
        self.check_radius()
        items, merged, by = self.halves()
        group, limit = self.query.group, "" if self.query.limit is None else f" LIMIT {self.query.limit}"
        end = (f" ORDER BY {','.join(by)}" if by else "") + limit
        chunk = f"chunk: SELECT {','.join(items)} FROM {self.tables()}"
        chunk += f" WHERE {self.query.cond.printed()}" if self.query.cond else ""
        chunk += f" GROUP BY {','.join(col.written() for col in group)}" if group else ""
        chunk += end if limit and not self.is_grouping else ""
        merge = f"merge: SELECT {','.join(merged)} FROM pieces"
        merge += f" GROUP BY {','.join(f'c{place}' for place in range(1, len(group) + 1))}" if group else ""
        return [chunk, merge + end, "chunks:" + "".join(f" {chunk}" for chunk in self.plan())]


# ---- whole texts


def block(make):
    try:
        return make()
    except Refused as refusal:
        return [str(refusal)]


def text_of(blocks):
    return "".join("\n".join([f"query {number}", *lines]) + "\n" for number, lines in enumerate(blocks, 1))


def transcript(world, lines):
    """What the queries with these lines answer."""
    return text_of(block(lambda: Bound(line, world).block()) for line in lines)


def explanation(world, lines):
    """What explains the queries with these lines."""
    return text_of(block(lambda: Explained(line, world).lines()) for line in lines)


def report(world):
    """How the rows are distributed over the chunks."""
    own = collections.Counter(world.chunk_of.values())
    near = collections.Counter(chunk for row in world.rows for chunk in world.sky.near(tuple(row[1:4])))
    lines = [f"{len(world.rows)} rows, {len(own)} of {world.sky.count} chunks\n"]
    # a chunk is near its own rows too
    return "".join(lines + [f"chunk {chunk}: {own[chunk]} rows, {near[chunk] - own[chunk]} overlap\n" for chunk in sorted(own)])
