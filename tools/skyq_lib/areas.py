"""Areas of the sky and distances as conditions: in the engine's language on the grid, and as tests on the degrees.

Rounding moves a position by less than grid.SLACK units, so a condition that is loosened by SLACK holds for every row that the
degrees would give, and perhaps for a few more; `truth` then decides on the degrees. Without slack the engine decides alone,
right but for what lies nearer than 1.331 mas to a border.
"""
import dataclasses
import math
from fractions import Fraction

import numpy as np

from skyq_lib import conditions, grid
from skyq_lib import whole as w
from skyq_lib.errors import SkyqError

COORDINATE = grid.Z_MOST            # the largest size of x, y and z
NORMAL = 2**40                      # the length of a side's normal, in the whole numbers of a polygon's test
HALF_TURN = 648000.0                # arcseconds
NARROWEST = 1e-6                    # of a box, in degrees: its sides are directions of whole numbers


@dataclasses.dataclass
class Place:
    """A row's own position (`table` is its engine's alias with a dot, or ''), or a fixed one in degrees."""
    table: str | None = None
    ra: float = 0.0
    dec: float = 0.0

    @property
    def is_row(self):
        return self.table is not None

    def axis(self, name):
        """The coordinate x, y or z of a row's position."""
        return w.column(self.table + name, COORDINATE)

    @property
    def names(self):
        """The engine's columns that keep its degrees."""
        return {self.table + name for name in ("ra_deg", "dec_deg")} if self.is_row else set()

    def vectors(self, rows):
        """Unit vectors, from the degrees."""
        ra, dec = rows.degrees(self.table) if self.is_row else (self.ra, self.dec)
        return np.stack(grid.unit_vectors(ra, dec), axis=-1)


def squared_chord(a, b):
    """The squared straight line between two places, as a Whole; b may be fixed."""
    centre = None if b.is_row else [int(n) for n in grid.to_grid(b.ra, b.dec)]
    squares = []
    for k, name in enumerate("xyz"):
        there = b.axis(name) if b.is_row else w.number(abs(centre[k]))
        part = (w.plus if centre and centre[k] < 0 else w.minus)(a.axis(name), there)
        squares.append(w.times(part, part))
    return w.total(squares)


def limit(op, arcsec, slack):
    """The whole n for which a squared chord within it is what the angle says: op < and <= ask for <= n, > and >= for > n."""
    loosened = grid.chord(arcsec) + (slack if op[0] == "<" else -slack)
    if loosened < 0:
        return -1
    square = Fraction(loosened) ** 2
    return math.floor(square) if op in ("<=", ">") else math.ceil(square) - 1


@dataclasses.dataclass
class Near(conditions.Condition):
    """A distance of two places, the first one a row's, compared with an angle."""
    a: Place
    b: Place
    op: str
    arcsec: float
    slack: float
    is_first: bool = False          # whether the area tests of the engine, which are of the first table, can say it
    is_join: bool = False           # whether it is the chord2 that each join has
    is_rounded = True

    @property
    def is_within(self):
        return self.op[0] == "<"

    @property
    def text(self):
        n = limit(self.op, self.arcsec, self.slack)
        return f"{squared_chord(self.a, self.b).text}{'<=' if self.is_within else '>'}{n}"

    @property
    def top_text(self):
        n = limit(self.op, self.arcsec, self.slack)
        if self.is_join:
            return f"chord2(a,b)<={n}" if n >= 0 else "chord2(a,b)<0"
        if not (self.is_within and self.is_first and 0 <= n <= grid.MAX_CHORD2):
            return self.text
        x, y, z = grid.to_grid(self.b.ra, self.b.dec)
        return f"area_cap({x},{y},{z},{n})"

    @property
    def names(self):
        return self.a.names | self.b.names

    def truth(self, rows):
        apart = np.linalg.norm(self.a.vectors(rows) - self.b.vectors(rows), axis=-1)
        return conditions.OPERATORS[self.op](apart, grid.chord(self.arcsec) / grid.UNIT)


def near(a, b, op, arcsec, slack, first):
    """The condition that two places are so far apart. Beyond 90 degrees it is asked of the opposite place.

    Rounding moves the length of a position too, which near the opposite place would change the angle by seconds of arc.
    """
    if b.is_row and not a.is_row:
        a, b = b, a
    if not b.is_row and arcsec > HALF_TURN / 2:
        b = Place(None, (b.ra + 180.0) % 360.0, -b.dec)
        op, arcsec = conditions.MIRRORED[op], HALF_TURN - arcsec
    return Near(a, b, op, arcsec, slack, is_first=a.table == first and not b.is_row)


@dataclasses.dataclass
class Area(conditions.Condition):
    """A box or a polygon, or what is outside of one."""
    place: Place
    test: conditions.Condition      # on the grid
    decide: object                  # where it is true on the degrees: rows to a mask
    cover: str | None = None        # an area test of the engine that holds it, for the top of WHERE
    is_whole: bool = False          # whether the cover says all
    is_rounded = True

    @property
    def text(self):
        return self.test.text

    @property
    def top_text(self):
        if self.cover is None:
            return self.text
        return self.cover if self.is_whole else f"{self.cover} AND {self.text}"

    @property
    def names(self):
        return self.place.names

    def truth(self, rows):
        return self.decide(rows)


def half(value, bound, inside, slack):
    """value >= bound, or value < bound, loosened by slack."""
    if inside:
        return conditions.with_number(">=", value, Fraction(bound) - Fraction(slack))
    return conditions.with_number("<", value, Fraction(bound) + Fraction(slack))


def plane(place, parts):
    """a x + b y + c z as a Whole, without the parts that are 0."""
    wholes = [w.times(w.number(n), place.axis(name)) for n, name in zip(parts, "xyz") if n]
    return w.total(wholes or [w.times(w.number(0), place.axis("x"))])


def polygon(place, corners, inside, slack, first):
    """A convex polygon of corners in degrees: a half space for each side, a plane through the centre of the sphere."""
    points = np.stack(grid.unit_vectors(*np.array(corners, "f8").T), axis=-1)
    normals, middle = normals_of(points)
    tests = [half(plane(place, [round(NORMAL * float(part)) for part in normal]), 0, inside, slack * NORMAL) for normal in normals]

    def decide(rows):
        is_inside = (place.vectors(rows) @ normals.T >= 0).all(axis=-1)
        return is_inside if inside else ~is_inside

    found = Area(place, conditions.joined("AND" if inside else "OR", tests), decide)
    if inside and place.table == first:
        ra, dec = math.degrees(math.atan2(middle[1], middle[0])), math.degrees(math.asin(middle[2]))
        farthest = math.degrees(math.acos(min(1.0, float((points @ middle).min())))) * 3600
        found.cover = Near(place, Place(None, ra, dec), "<=", farthest + 1.0, grid.SLACK, True).top_text
    return found


def normals_of(points):
    """The inward normals of a convex polygon's sides, and its middle, as unit vectors."""
    points = points[np.linalg.norm(points - np.roll(points, 1, axis=0), axis=1) > 1e-12]
    normals, middle = np.cross(points, np.roll(points, -1, axis=0)), points.sum(axis=0)
    lengths = np.linalg.norm(normals, axis=1, keepdims=True)
    if len(points) < 3 or np.linalg.norm(middle) < 1e-9 or lengths.min() < 1e-12:
        raise SkyqError("the POLYGON is none: it takes three corners or more that are not on one line")
    normals, middle = normals / lengths, middle / np.linalg.norm(middle)
    normals = normals if (normals @ middle).sum() > 0 else -normals
    if (normals @ points.T).min() < -1e-12 or (points @ middle).min() <= 0:
        raise SkyqError("the POLYGON is not convex, or half of the sky wide; ask for convex parts of it")
    if (normals @ middle).min() < 1e-12:
        raise SkyqError("the POLYGON is none: its corners are on one line")
    return normals, middle


@dataclasses.dataclass
class Box:
    """Ranges of right ascension, from west to east, and of declination, in degrees."""
    ra: float
    dec: float
    width: float
    height: float

    def __post_init__(self):
        if not (NARROWEST <= self.width and 0 <= self.height):
            raise SkyqError(f"a BOX is at least {NARROWEST} degrees wide, and its height is not negative")
        self.west, self.east = self.ra - self.width / 2, self.ra + self.width / 2
        self.south, self.north = max(-90.0, self.dec - self.height / 2), min(90.0, self.dec + self.height / 2)

    @property
    def is_round(self):
        return self.width >= 360

    def heights(self, slack):
        return math.ceil(grid.height(self.south) - slack), math.floor(grid.height(self.north) + slack)

    def holds(self, ra, dec):
        is_across = np.abs((ra - self.ra + 180.0) % 360.0 - 180.0) <= self.width / 2
        return is_across & (self.south <= dec) & (dec <= self.north)

    def sides(self, place, inside, slack):
        """The test of right ascension: past the western side and short of the eastern, in the plane of x and y."""
        (ax, ay), (bx, by) = grid.direction(self.west), grid.direction(self.east)
        loose = slack * 2 * grid.UNIT
        both = [half(plane(place, (-ay, ax)), 0, inside, loose), half(plane(place, (by, -bx)), 0, inside, loose)]
        return conditions.joined("AND" if (self.width <= 180) == inside else "OR", both)

    def anywhere(self, place, inside, slack):
        z = place.axis("z")
        south = half(z, grid.height(self.south), inside, slack)
        # z <= north as -z >= -north, and its opposite z > north
        north = conditions.with_number("<=" if inside else ">", z, Fraction(grid.height(self.north)) + Fraction(slack if inside else -slack))
        sides = [] if self.is_round else [self.sides(place, inside, slack)]
        return conditions.joined("AND" if inside else "OR", [south, north, *sides])

    def cover(self, slack):
        """An area of the engine that holds the box, and whether it is the box itself."""
        low, high = self.heights(slack)
        rim = math.cos(math.radians(max(abs(self.south), abs(self.north))))
        wider = math.degrees(1.5 * slack / (grid.UNIT * rim)) if rim > 1e-6 else 1.0
        if self.width + 2 * wider < 180 and wider < 1.0:
            (ax, ay), (bx, by) = grid.direction(self.west - wider), grid.direction(self.east + wider)
            return f"area_box({low},{high},{ax},{ay},{bx},{by})", True
        return f"area_band({low},{high})", self.is_round


def box(place, shape, inside, slack, first):
    """Where a Box holds, or does not."""

    def decide(rows):
        is_inside = shape.holds(*rows.degrees(place.table))
        return is_inside if inside else ~is_inside

    found = Area(place, shape.anywhere(place, inside, slack), decide)
    if inside and place.table == first:
        found.cover, found.is_whole = shape.cover(slack)
    return found
