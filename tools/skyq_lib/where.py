"""The conditions of a query's tree as conditions of the engine: comparisons, lists, words, areas and distances."""
import dataclasses
import re
from fractions import Fraction

from skyq_lib import adql_tree as tree
from skyq_lib import areas, conditions
from skyq_lib import whole as w
from skyq_lib.errors import SkyqError
from skyq_lib.scope import unframed

MOST_WORDS = 900                    # of a LIKE; the engine takes 2,048 tokens a query
PAIRS = "1=CONTAINS(POINT({0}.{2},{0}.{3}),CIRCLE({1}.{2},{1}.{3},0.01))"


class Where:
    """Makes Conditions of tree nodes. Areas and distances are loosened by slack, in grid units."""

    def __init__(self, scope, slack=0.0):
        self.scope, self.slack = scope, slack

    def all_of(self, nodes):
        """The Conditions that must all hold, at the top of WHERE; of a join the distance of its pairs is one."""
        found = conditions.conjuncts(conditions.joined("AND", [self.condition(node) for node in nodes])) if nodes else []
        if not self.scope.is_join:
            return found
        pairs = [k for k, one in enumerate(found) if isinstance(one, areas.Near) and one.b.is_row and one.is_within]
        if not pairs:
            names = (*self.scope.called, self.scope.catalogue.ra, self.scope.catalogue.dec)
            raise SkyqError("a query of two tables asks for near pairs: it needs a distance of the two, with nothing but AND around it, "
                            f"as in {PAIRS.format(*names)}")
        least = min(pairs, key=lambda k: found[k].arcsec)
        return [dataclasses.replace(one, is_join=True) if k == least else one for k, one in enumerate(found)]

    def condition(self, node, no=False):
        """The Condition of a node, or its opposite."""
        if isinstance(node, tree.Not):
            return self.condition(node.of, not no)
        if isinstance(node, tree.Junction):
            word = node.word if not no else "OR" if node.word == "AND" else "AND"
            return conditions.joined(word, [self.condition(part, no) for part in node.parts])
        if isinstance(node, tree.Between):
            both = [tree.Binary(">=", node.value, node.low), tree.Binary("<=", node.value, node.high)]
            return self.condition(tree.Junction("AND", both), no != node.no)
        if isinstance(node, tree.Binary) and node.op in conditions.OPERATORS:
            return self.comparison(conditions.OPPOSITE[node.op] if no else node.op, node.left, node.right)
        if isinstance(node, tree.In):
            return self.listed(node, no != node.no)
        if isinstance(node, tree.Like):
            return self.like(node, no != node.no)
        if isinstance(node, tree.IsNull):
            return self.null(node, no != node.no)
        if isinstance(node, tree.Call):
            raise SkyqError(self.scope.no_call(node.name))
        raise SkyqError("WHERE takes conditions; a value stands where one is due")

    def comparison(self, op, left, right):
        if is_call(right, "CONTAINS", "INTERSECTS", "DISTANCE") or isinstance(left, tree.Text):
            left, right, op = right, left, conditions.MIRRORED[op]
        if is_call(left, "CONTAINS", "INTERSECTS"):
            return self.contains(op, left, self.scope.number(right, f"what {left.name} is compared with"))
        if is_call(left, "DISTANCE"):
            a, b = self.distance(left.args)
            return self.near(a, b, op, self.scope.number(right, "what DISTANCE is compared with"))
        if isinstance(right, tree.Text):
            return self.with_word(op, self.words(left, right.value), right.value)
        a, b = self.scope.value(left), self.scope.value(right)
        if "word" in (a.kind, b.kind):
            self.check_words(op, a, b)
        return conditions.compared(op, a, b)

    # -- words

    def words(self, node, word):
        """The Value of a column of words, which a word is compared with."""
        value = None if isinstance(node, tree.Text) else self.scope.value(node)
        if value is None or value.kind != "word":
            called = f"; {value.column.source} holds numbers" if value is not None and value.column else ""
            raise SkyqError(f"'{word}' is compared with a column of words alone{called}")
        return value

    def with_word(self, op, value, word):
        if op not in ("=", "<>"):
            raise SkyqError(f"words are compared by =, <>, IN and LIKE alone, and not by {op}")
        number = value.column.number_of_word(word)
        if number < 0:
            return conditions.settled(op == "<>", value.whole)
        return conditions.Comparison(op, value.whole, w.number(number))

    @staticmethod
    def check_words(op, a, b):
        """Two columns of words are compared where their words are numbered alike."""
        if a.kind != "word" or b.kind != "word":
            one = a if a.kind == "word" else b
            raise SkyqError(f"{one.column.source} holds words; compare it with a word in quotes")
        if op not in ("=", "<>") or a.column.words != b.column.words:
            raise SkyqError(f"{a.column.source} and {b.column.source} hold words; only = and <> of one column in two rows are answered here")

    def like(self, node, no):
        value = self.words(node.value, node.pattern)
        pattern = "".join(".*" if c == "%" else "." if c == "_" else re.escape(c) for c in node.pattern)
        numbers = [Fraction(k) for k, word in enumerate(value.column.words) if re.fullmatch(pattern, word, re.S)]
        if len(numbers) > MOST_WORDS:
            raise SkyqError(f"'{node.pattern}' is like {len(numbers)} words of {value.column.source}; at most {MOST_WORDS} are asked at a time")
        return conditions.among(value.whole, numbers, no)

    def listed(self, node, no):
        if all(isinstance(one, tree.Text) for one in node.listed):
            value = self.words(node.value, node.listed[0].value)
            numbers = [value.column.number_of_word(one.value) for one in node.listed]
            return conditions.among(value.whole, [Fraction(k) for k in numbers if k >= 0], no)
        value = self.scope.computed(node.value)
        numbers = [self.scope.number(one, "each part of an IN list") for one in node.listed]
        if value.const is not None:
            return conditions.settled((value.const in numbers) != no)
        return conditions.among(value.whole, [number * value.scale for number in numbers], no)

    def null(self, node, no):
        if isinstance(node.value, tree.Name) and self.scope.meant(node.value) in ("ra", "dec"):
            prefix = self.scope.prefix(node.value.table, node.value.name)
            return conditions.Null(w.column(prefix + "x", areas.COORDINATE), no)
        value = self.scope.value(node.value)
        return conditions.settled(no) if value.const is not None else conditions.Null(value.whole, no)

    # -- areas and distances

    def near(self, a, b, op, degrees):
        """Two places that are so far apart."""
        if not (a.is_row or b.is_row):
            raise SkyqError("a distance is one of a row's own position, as in DISTANCE(POINT(ra,dec),POINT(10,20)) < 0.5")
        if a.table == b.table:
            raise SkyqError("the distance of a row to itself is 0; name the two tables, as in POINT(a.ra,a.dec) and POINT(b.ra,b.dec)")
        if op in ("=", "<>"):
            raise SkyqError("a distance is compared by <, <=, > or >=, or BETWEEN")
        if not 0 <= degrees <= 180:
            return conditions.settled((degrees > 180) == (op[0] == "<"))
        return areas.near(a, b, op, float(degrees * 3600), self.slack, self.scope.first)

    def distance(self, args):
        """The two Places of a DISTANCE: two points, or four numbers or columns."""
        if len(args) == 4:
            return self.scope.place(*args[:2]), self.scope.place(*args[2:])
        if len(args) != 2:
            raise SkyqError("DISTANCE takes two points, as in DISTANCE(POINT(ra,dec),POINT(10,20))")
        return self.scope.point(args[0]), self.scope.point(args[1])

    def contains(self, op, call, number):
        if op not in ("=", "<>") or number not in (0, 1):
            raise SkyqError(f"{call.name} is compared with 1 or 0, by =")
        if len(call.args) != 2:
            raise SkyqError(f"{call.name} takes a point and a shape")
        inside, (inner, shape) = (number == 1) == (op == "="), call.args
        if call.name == "INTERSECTS" and is_call(shape, "POINT"):
            inner, shape = shape, inner
        if not is_call(shape, "CIRCLE", "BOX", "POLYGON"):
            raise SkyqError(f"{call.name} takes a point and one of CIRCLE, BOX and POLYGON")
        place, args = self.scope.point(inner), unframed(shape.args)
        if shape.name == "CIRCLE":
            return self.circle(place, args, inside)
        if not place.is_row:
            raise SkyqError(f"what is in the {shape.name} is a row's own position, as in POINT(ra,dec)")
        if shape.name == "POLYGON":
            return areas.polygon(place, self.corners(args), inside, self.slack, self.scope.first)
        return areas.box(place, self.box(args), inside, self.slack, self.scope.first)

    def circle(self, place, args, inside):
        if len(args) not in (2, 3):
            raise SkyqError("CIRCLE takes a centre and a radius in degrees, as in CIRCLE(10,20,0.5)")
        centre = self.scope.point(args[0]) if len(args) == 2 else self.scope.place(*args[:2])
        radius = self.scope.number(args[-1], "the radius of a CIRCLE")
        if not 0 <= radius <= 180:
            raise SkyqError(f"the radius {float(radius):g} of a CIRCLE is outside 0 to 180 degrees")
        return self.near(place, centre, "<=" if inside else ">", radius)

    def box(self, args):
        if len(args) not in (3, 4):
            raise SkyqError("BOX takes a centre, a width and a height, in degrees, as in BOX(10,20,2,1)")
        centre = self.scope.point(args[0]) if len(args) == 3 else self.scope.place(*args[:2])
        if centre.is_row:
            raise SkyqError("the centre of a BOX is two numbers")
        return areas.Box(centre.ra, centre.dec, *(float(self.scope.number(arg, "the size of a BOX")) for arg in args[-2:]))

    def corners(self, args):
        """The corners of a POLYGON: points, or numbers two by two."""
        if args and is_call(args[0], "POINT"):
            places = [self.scope.point(arg) for arg in args]
        elif len(args) % 2:
            raise SkyqError("POLYGON takes a right ascension and a declination for each corner")
        else:
            places = [self.scope.place(*pair) for pair in zip(args[0::2], args[1::2])]
        if any(place.is_row for place in places):
            raise SkyqError("the corners of a POLYGON are numbers")
        return [(place.ra, place.dec) for place in places]


def is_call(node, *names):
    return isinstance(node, tree.Call) and node.name in names
