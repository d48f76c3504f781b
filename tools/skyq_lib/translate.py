"""Translates ADQL to the engine's SQL by a catalogue, and says how the answer's columns are read back.

Conditions on columns are exact on the stored values: both sides are brought to whole numbers. Areas and distances of pairs
meet the rounding of positions to the grid, at most grid.SLACK units; loosened by that they hold for a sure superset.
"""
import dataclasses
import math
import re
from fractions import Fraction

from skyq_lib import adql, areas, grid, outs
from skyq_lib import adql_tree as tree
from skyq_lib import whole as w
from skyq_lib.columns import DEGREES
from skyq_lib.errors import SkyqError
from skyq_lib.scope import ALIASES, NEED_DEGREES, TABLE, Scope
from skyq_lib.where import Where, is_call

AGGREGATES = ("COUNT", "SUM", "MIN", "MAX", "AVG")
MOST_KEYS = 4                       # of a GROUP BY
LONGEST, MOST_TOKENS = 16384, 2048  # of the engine's query
KEY = "key_"                        # the alias of the item that orders, where one does


@dataclasses.dataclass
class Translation:
    """`sql` is the engine's query on one line; `outs` the columns of the table; `top` the rows asked for, or None.

    `tests` are the conditions that `exact.keep` decides on the degrees, and `by` is the Out of the distance that orders the
    rows, if it has to be by the degrees too. `places` has the answer's columns by the engine's names.
    """
    sql: str
    outs: list
    top: int | None = None
    tests: list = dataclasses.field(default_factory=list)
    places: dict = dataclasses.field(default_factory=dict)
    radius: float | None = None     # of the pairs, in arcseconds
    by: object = None
    is_down: bool = False

    @property
    def is_filtered(self):
        """Whether the engine's rows are more than those of the answer, or in another order."""
        return bool(self.tests) or self.by is not None


def translate(text, catalogue, maxrec=None, exact=False):
    """The Translation of an ADQL text; a SkyqError says, in the user's words, what is not answered and what to do instead.

    With `maxrec` the engine is asked for one row more, which tells that rows were left out. With `exact` areas and pair
    distances are loosened by the rounding bound, and `exact.keep` has to filter the rows before TOP cuts them.
    """
    try:
        return Translator(adql.read(text), catalogue, grid.SLACK if exact else 0.0).translation(maxrec)
    except RecursionError:
        raise SkyqError("the query is too long; ask it in parts") from None


class Translator:
    def __init__(self, query, catalogue, slack):
        self.query, self.catalogue, self.slack = query, catalogue, slack
        self.scope = Scope(catalogue, query.tables)
        self.where = Where(self.scope, slack).all_of(query.where)
        self.group = [self.scope.column(name).whole.text for name in query.group]
        self.is_grouped = bool(self.group) or any(is_call(item.value, *AGGREGATES) for item in query.items)
        self.items = []             # the engine's items
        self.by = None              # the Out that orders by the degrees
        self.check_grouping()

    def check_grouping(self):
        if self.is_grouped and self.scope.is_join:
            raise SkyqError("aggregates and GROUP BY over pairs are not answered here; ask for the pairs and count them")
        if len(self.group) > MOST_KEYS:
            raise SkyqError(f"GROUP BY takes at most {MOST_KEYS} columns here")

    def translation(self, maxrec):
        tests = [one for one in self.where if one.is_rounded] if self.slack else []
        found = outs.named([out for item in self.query.items for out in self.outs_of(item)])
        key = self.order_key(found) if self.query.order is not None else None
        if tests or self.by:
            self.check_exact()
        for name in sorted(set().union(*(test.names for test in tests))):
            self.place(name)
        limit = self.query.top
        if maxrec is not None:
            limit = maxrec + 1 if limit is None else min(limit, maxrec + 1)
        sql = self.text(key, None if tests or self.by else limit)
        radius = next((one.arcsec for one in self.where if isinstance(one, areas.Near) and one.is_join), None)
        places = {name: k for k, name in enumerate(self.items)}
        return Translation(sql, found, self.query.top, tests, places, radius, self.by, self.query.down)

    def check_exact(self):
        if not self.catalogue.has_degrees:
            raise SkyqError("--exact decides on the degrees, which this catalogue does not keep: ingest it with --degrees")
        if self.is_grouped:
            raise SkyqError("--exact answers rows and pairs, and no aggregates: ask for the rows and count them")

    def text(self, key, limit):
        """The engine's query."""
        items = [f"{item} AS {KEY}" if place == key else item for place, item in enumerate(self.items)]
        tables = [f"{TABLE} {alias}" for alias in ALIASES] if self.scope.is_join else [TABLE]
        sql = f"SELECT {','.join(items)} FROM {','.join(tables)}"
        if self.where:
            sql += " WHERE " + " AND ".join(one.top_text for one in self.where)
        if self.group:
            sql += f" GROUP BY {','.join(self.group)}"
        if key is not None:
            sql += f" ORDER BY {KEY}{' DESC' if self.query.down else ''}"
        if limit is not None:
            sql += f" LIMIT {min(limit, w.LARGEST)}"
        if len(sql) > LONGEST or len(re.findall(r"\w+|[<>!]=|<>|\S", sql)) > MOST_TOKENS:
            raise SkyqError("the query is too long for the engine; ask it in parts")
        return sql

    def place(self, text):
        """The place of an engine's item, which is added if it is new."""
        if text not in self.items:
            self.items.append(text)
        return self.items.index(text)

    # -- items

    def outs_of(self, item):
        """The Outs of an item."""
        value = item.value
        if isinstance(value, tree.Star):
            return self.starred(value)
        if is_call(value, *AGGREGATES):
            return [self.aggregate(item)]
        if is_call(value, "DISTANCE"):
            return [self.distance(item)]
        if isinstance(value, tree.Name):
            return [dataclasses.replace(self.named(value), **({"name": item.alias, "table": None} if item.alias else {}))]
        found = self.scope.value(value)
        return [self.out_of(found, item.alias or "value", found.at(found.scale), item.text)]

    def starred(self, star):
        if self.is_grouped:
            raise SkyqError("* is not grouped; ask for the columns of GROUP BY and aggregates")
        tables = [star.table] if star.table else self.scope.called if self.scope.is_join else [None]
        return [self.named(tree.Name(table, name, True)) for table in tables for name in self.scope.names]

    def named(self, name):
        """The Out of a column."""
        what, prefix = self.scope.meant(name), self.scope.prefix(name.table, name.name)
        if what in ("ra", "dec") and not self.catalogue.has_degrees:
            found = self.position(what, prefix)
        else:
            value = self.scope.column(name)
            found = self.out_of(value, name.name, value.whole, name.name)
        if what in ("id", "ra", "dec"):
            called = {"id": self.catalogue.id or "objectId", "ra": self.catalogue.ra, "dec": self.catalogue.dec}[what]
        else:
            called = getattr(what, "source", what)
        return dataclasses.replace(found, name=called, table=name.table if self.scope.is_join else None)

    def position(self, what, prefix):
        """The Out of a right ascension or a declination that is made from the grid's position."""
        if self.is_grouped:
            raise SkyqError(f"{what} {NEED_DEGREES.format(what)}, and to group by it")
        places = [self.place(prefix + axis) for axis in "xyz"]
        return outs.Out(what, outs.degrees(places, ("ra", "dec").index(what)), "deg", "from the grid, good to 0.7 mas")

    def out_of(self, value, name, whole, shown):
        """The Out of a value."""
        if self.is_grouped and not whole.names <= set(self.group):
            raise SkyqError(f"{shown} is neither in GROUP BY nor in an aggregate")
        place = self.place(whole.text)
        if value.column is not None:
            return outs.Out(name, outs.column(place, value.column), value.unit, value.column.description, place)
        is_whole = value.kind != "float" and value.scale == 1
        read = outs.whole(place) if is_whole else outs.scaled(place, value.scale)
        return outs.Out(name, read, value.unit, key=place)

    def aggregate(self, item):
        word, args = item.value.name, item.value.args
        name = item.alias or word.lower()
        if len(args) != 1:
            raise SkyqError(f"{word} takes one value")
        if isinstance(args[0], tree.Star):
            if word != "COUNT":
                raise SkyqError(f"{word} takes a column; only COUNT takes *")
            return self.counted(name, "COUNT(*)")
        if is_call(args[0], "DISTANCE") and word in ("MIN", "MAX"):
            place = self.place(f"{word}({self.chord(args[0]).text})")
            return outs.Out(name, outs.distance(place), "deg", key=place)
        if word == "COUNT" and isinstance(args[0], tree.Name) and self.scope.meant(args[0]) in ("ra", "dec"):
            return self.counted(name, "COUNT(*)")       # each row has a position
        value = self.scope.value(args[0])
        whole = value.at(value.scale)
        if word == "COUNT":
            return self.counted(name, f"COUNT({whole.text})")
        if value.kind == "word" and word in ("SUM", "AVG"):
            raise SkyqError(f"{word} takes numbers; {value.column.source} holds words")
        place = self.place(f"{word}({whole.text})")
        if word == "AVG":
            return outs.Out(name, outs.average(place, value.scale), value.unit, key=place)
        if word in ("MIN", "MAX") and value.column is not None:
            return outs.Out(name, outs.column(place, value.column), value.unit, key=place)
        is_whole = value.kind != "float" and value.scale == 1
        return outs.Out(name, outs.whole(place) if is_whole else outs.scaled(place, value.scale), value.unit, key=place)

    def counted(self, name, text):
        place = self.place(text)
        return outs.Out(name, outs.whole(place), key=place)

    # -- distances

    def chord(self, call):
        """The squared chord of a DISTANCE, as a Whole."""
        a, b = Where(self.scope).distance(call.args)
        if b.is_row and not a.is_row:
            a, b = b, a
        if not a.is_row or a.table == b.table:
            raise SkyqError("a distance is one of a row's own position, as in DISTANCE(POINT(ra,dec),POINT(10,20))")
        return areas.squared_chord(a, b)

    def distance(self, item):
        """The Out of a DISTANCE: from the degrees where they are kept, else from the grid. It orders by the squared chord."""
        if self.is_grouped:
            raise SkyqError("DISTANCE is neither in GROUP BY nor in an aggregate")
        name, text = item.alias or "distance", self.chord(item.value).text
        if not self.catalogue.has_degrees:
            place = self.place(text)
            return outs.Out(name, outs.distance(place), "deg", "from the grid, good to 1.4 mas", place, is_distance=True)
        sides = []
        for there in Where(self.scope).distance(item.value.args):
            kept = [(there.table + name, self.catalogue.engine_column(name).scale) for name in DEGREES] if there.is_row else []
            sides.append([(self.place(column), scale) for column, scale in kept] or [there.ra, there.dec])
        return outs.Out(name, outs.separation(*sides), "deg", key=text, is_distance=True)

    # -- the order

    def order_key(self, found):
        """The place of the engine's item that orders."""
        out = self.ordering(found)
        if out.key is None:
            raise SkyqError(f"a position {NEED_DEGREES.format('it')}")
        if self.slack and out.is_distance:
            self.by = out
        return self.place(out.key) if isinstance(out.key, str) else out.key

    def ordering(self, found):
        """The Out that orders: one of those of the query, by its place or alias, or one of its own."""
        node = self.query.order
        if isinstance(node, tree.Number):
            if not (node.value.denominator == 1 and 1 <= node.value <= len(found)):
                raise SkyqError(f"ORDER BY {float(node.value):g} is the place of no column; there are {len(found)}")
            return found[int(node.value) - 1]
        if isinstance(node, tree.Name) and node.table is None and node.name.lower() in self.aliases():
            return found[[out.name.lower() for out in found].index(node.name.lower())]
        return self.outs_of(tree.Item(node))[0]

    def aliases(self):
        return [item.alias.lower() for item in self.query.items if item.alias]


def refusal(why, translation, catalogue):
    """The engine's refusal in the user's words and units."""
    found = re.fullmatch(r"radius (\d+) above (\d+)", why)
    if found:
        asked = translation.radius if translation.radius is not None else grid.arcsec_of_chord2(int(found[1]))
        wanted = f"{math.ceil(asked * 1000 - 1e-6) / 1000:.10g}"
        return (f"pairs within {float(f'{asked:.9g}'):.10g} arcsec reach past the overlap of this catalogue, "
                f"{grid.text_of_arcsec(catalogue.overlap_arcsec)}: ingest it with --overlap {wanted}arcsec")
    if re.fullmatch(r"total -?\d+ out of range", why):
        return "a sum passes 100 bits, which is all that the engine holds"
    if why.startswith("brackets too deep"):
        return "the query has too many brackets within brackets"
    if why == "out of memory":
        return "the engine was out of memory in this query; ask for fewer rows"
    return f"the engine does not answer it: {why}"
