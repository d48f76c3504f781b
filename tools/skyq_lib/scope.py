"""What the names of a query stand for: its tables, the columns of the catalogue, values and places."""
import difflib
from fractions import Fraction

from skyq_lib import adql_tree as tree
from skyq_lib import whole as w
from skyq_lib.areas import COORDINATE, Place
from skyq_lib.columns import DEGREES, MOST
from skyq_lib.errors import SkyqError
from skyq_lib.grid import UNIT

TABLE = "Object"
ALIASES = ("a", "b")                # of the two tables of a join, in the engine's text
LARGEST_ID = 2**63 - 1
TRUTH = {"true": 1, "false": 0}
FRAMES = ("", "ICRS", "FK5", "J2000")
NEED_DEGREES = "is kept as a place on the sphere and not as degrees: ingest the catalogue with --degrees to compare {0} or to order by it"


class Scope:
    """The tables of a query over a catalogue. Of one table the engine's columns have no alias, of two `a.` or `b.`."""

    def __init__(self, catalogue, tables):
        self.catalogue = catalogue
        if len(tables) > 2:
            raise SkyqError("a query is of one table, or of two for pairs of near objects")
        for name, _ in tables:
            if name.split(".")[-1].lower() != TABLE.lower():
                raise SkyqError(f"there is no table {name}; the table is {TABLE}")
        self.is_join = len(tables) == 2
        self.called = [(alias or name.split(".")[-1]) for name, alias in tables]
        if self.is_join and self.called[0].lower() == self.called[1].lower():
            raise SkyqError(f"the two tables need names of their own, as in FROM {TABLE} AS a JOIN {TABLE} AS b")
        self.prefixes = [f"{alias}." for alias in ALIASES] if self.is_join else [""]

    @property
    def first(self):
        return self.prefixes[0]

    def prefix(self, table, column):
        """The engine's prefix of a table's columns."""
        if table is None and self.is_join:
            raise SkyqError(f"{column} needs the name of its table before it, as in {self.called[0]}.{column}")
        if table is None:
            return self.first
        known = [name.lower() for name in self.called]
        if table.lower() not in known:
            raise SkyqError(f"there is no table {table} in the query; there is {' and '.join(self.called)}")
        return self.prefixes[known.index(table.lower())]

    # -- columns

    @property
    def names(self):
        """The user's names of the columns, in the table's order."""
        cat = self.catalogue
        return [cat.id or "objectId", cat.ra, cat.dec] + [column.source for column in cat.columns if column.name not in DEGREES]

    def meant(self, name):
        """Which column a Name means: 'id', 'ra', 'dec', 'x', 'y', 'z' or a Column of the catalogue."""
        cat, low = self.catalogue, name.name.lower()
        own = {"id": cat.id or "objectId", "ra": cat.ra, "dec": cat.dec}
        for what, called in own.items():
            if name.name == called or (low == called.lower() and not name.exact):
                return what
        column = cat.column(name.name)
        if column is not None and (not name.exact or name.name in (column.source, column.name)):
            return column
        if low == "objectid":
            return "id"
        if low in ("x", "y", "z"):
            return low
        by_low = {name.lower(): name for name in self.names}
        close = difflib.get_close_matches(low, by_low, 1)
        hint = f" (did you mean {by_low[close[0]]}?)" if close else ""
        raise SkyqError(f"there is no column {name.name}{hint}; the columns are {', '.join(self.names)}")

    def column(self, name):
        """The Value of a column."""
        prefix, what = self.prefix(name.table, name.name), self.meant(name)
        if what == "id":
            return w.Value(w.column(prefix + "objectId", LARGEST_ID))
        if what in ("x", "y", "z"):
            return w.Value(w.column(prefix + what, COORDINATE), Fraction(UNIT), "float")
        if what in ("ra", "dec"):
            if not self.catalogue.has_degrees:
                raise SkyqError(f"{name.name} " + NEED_DEGREES.format(name.name))
            what = self.catalogue.engine_column(DEGREES[what == "dec"])
        return w.Value(w.column(prefix + what.name, MOST), Fraction(what.scale), what.kind, what.unit, what)

    # -- values

    def value(self, node):
        """The Value of a number, a column or arithmetic on them."""
        if isinstance(node, tree.Number):
            return w.constant(node.value)
        if isinstance(node, tree.Name):
            truth = TRUTH.get(node.name.lower()) if node.table is None and not node.exact else None
            is_column = truth is None or self.catalogue.column(node.name) is not None
            return self.column(node) if is_column else w.constant(truth)
        if isinstance(node, tree.Negative):
            return w.negated(self.computed(node.of))
        if isinstance(node, tree.Binary) and node.op in "+-*/":
            return self.arithmetic(node)
        if isinstance(node, tree.Text):
            raise SkyqError(f"'{node.value}' is compared with a column of words alone, by =, <>, IN or LIKE")
        if isinstance(node, tree.Call):
            raise SkyqError(self.no_call(node.name))
        if isinstance(node, tree.Star):
            raise SkyqError("* is asked as a column or counted by COUNT(*), and nothing else")
        raise SkyqError("a condition stands where a value is due; conditions belong in WHERE")

    def arithmetic(self, node):
        a, b = self.computed(node.left), self.computed(node.right)
        if node.op in "+-":
            return w.added(node.op, a, b)
        if node.op == "*":
            return w.multiplied(a, b)
        if b.const is None:
            raise SkyqError("division by a column is not answered here; multiply both sides by it, or divide the answer's columns")
        if b.const == 0:
            raise SkyqError("the query divides by 0")
        return w.divided(a, b)

    def computed(self, node):
        """A value that is computed with, which a word is not."""
        value = self.value(node)
        if value.kind == "word":
            raise SkyqError(f"{value.column.source} holds words, which are not computed with")
        return value

    @staticmethod
    def no_call(name):
        if name in ("COUNT", "SUM", "MIN", "MAX", "AVG"):
            return f"{name} is asked as a column by itself, and not computed or compared with; do so on the answer"
        if name == "DISTANCE":
            return "DISTANCE is compared with a number of degrees in WHERE, or asked as a column by itself"
        if name in ("CONTAINS", "INTERSECTS"):
            return f"{name} is compared with 1 or 0, as in 1=CONTAINS(POINT(ra,dec),CIRCLE(10,20,0.5))"
        return f"the function {name} is not answered here; ask for its columns and compute it on the answer"

    def number(self, node, what):
        """The number that a value without columns is."""
        value = self.value(node)
        if value.const is None:
            raise SkyqError(f"{what} is a number here, and no column")
        return value.const

    # -- places

    def place(self, ra, dec):
        """The Place of two values: the row's own position or two numbers of degrees."""
        if isinstance(ra, tree.Name) and isinstance(dec, tree.Name):
            sides = [(self.prefix(name.table, name.name), self.meant(name)) for name in (ra, dec)]
            if sides[0][0] == sides[1][0] and [side[1] for side in sides] == ["ra", "dec"]:
                return Place(sides[0][0])
            raise SkyqError(f"a place is the position ({self.catalogue.ra}, {self.catalogue.dec}) of one table, or two numbers of degrees")
        longitude, latitude = (self.number(node, "a place's coordinate") for node in (ra, dec))
        if abs(latitude) > 90:
            raise SkyqError(f"the declination {float(latitude):g} is outside -90 to 90")
        return Place(None, float(longitude), float(latitude))

    def point(self, node):
        """The Place of POINT([frame,] ra, dec)."""
        if not isinstance(node, tree.Call) or node.name != "POINT":
            raise SkyqError("a POINT is due, as in POINT(ra,dec) or POINT('ICRS',10,20)")
        args = unframed(node.args)
        if len(args) != 2:
            raise SkyqError("POINT takes a right ascension and a declination, in degrees")
        return self.place(*args)


def unframed(args):
    """The arguments without the name of a frame, which ADQL 2.0 wants before them."""
    if args and isinstance(args[0], tree.Text):
        frame = (args[0].value.upper().split() or [""])[0]
        if frame not in FRAMES:
            raise SkyqError(f"the frame is ICRS, and not {args[0].value}")
        return args[1:]
    return args
