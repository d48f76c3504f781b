"""Random skies, catalogues and queries over them, for checks of the program from outside."""
import compare_places as places
from random_queries import AREAS, COMPARISONS, LARGEST, Writer
from sql_trees import COORDINATE, FURTHER, IDS, PART, SQUARE

SKIES = [
    "overlap 5\nstripe -268435472 4 2 2\nstripe 0 4 2 2\n",
    "version 2\nstripe -268435472 4 2 2 5\nstripe 0 4 2 2 2\n",
    "overlap 16777216\nstripe -268435472 1 3 2\nstripe -100000000 5 2 3\nstripe 50000000 3 1 1\n",
    "overlap 1000000\nstripe -268435472 1 1 1\n",
    "version 2\nstripe -268435472 7 3 1 300000\nstripe 0 16 1 4 16777216\n",
]
FURTHER_NAMES = ["flux", "g", "mag", "kind", "k1", "k2", "k3", "k4", "k5", "k6", "k7", "k8"]


class Chunk:
    """A chunk's heights, its two side directions where it has any, and its overlap."""

    def __init__(self, stripe, wedge):
        self.low, self.high = stripe.low, stripe.end - 1
        self.sides = [places.heading(stripe.chunks, k % stripe.chunks) for k in (wedge, wedge + 1)] if stripe.chunks > 1 else None
        self.overlap = stripe.overlap


class World:
    """A sky, the names of the columns, and the rows in ascending id, each a list of values."""

    def __init__(self, sky, names, rows):
        self.sky, self.names, self.rows = places.Sky(sky), names, rows
        self.chunks = dict(enumerate(Chunk(stripe, wedge) for stripe in self.sky.stripes for wedge in range(stripe.chunks)))
        self.chunk_of = {row[0]: self.sky.place(tuple(row[1:4]))[0] for row in rows}

    def catalogue(self, draw):
        """The text of the catalogue, its rows in any order."""
        rows = [",".join("" if value is None else str(value) for value in row) for row in self.rows]
        draw.shuffle(rows)
        return "\n".join([",".join(self.names), *rows]) + "\n"


def small(draw):
    """At most 40 rows, ids at the ends of their range among them."""
    ids = {draw.choice([draw.randrange(40), draw.randrange(IDS + 1), IDS]) for _ in range(draw.randrange(41))}
    return made(draw, draw.choice(SKIES), draw.randrange(4), sorted(ids))


def large(draw):
    """Up to 1,000 rows, in many chunks."""
    sky = draw.choice(SKIES + [sky for sky in places.SKIES if sky.count("\n") < 20 and "1023" not in sky])
    count = draw.choice([120, 120, 300, 600, 1000])
    ids = draw.sample(range(3 * count), count) if draw.random() < 0.7 else {draw.randrange(IDS + 1) for _ in range(count)}
    return made(draw, sky, draw.choice([1, 2, 3, 4, 12]), sorted(ids))


def values(draw):
    """What draws extra values: NULLs, and few or many distinct values, or mostly the largest."""
    is_extreme, most = draw.random() < 0.3, draw.choice([1, 3, 30, 1000])

    def value():
        if draw.random() < 0.15:
            return None
        if is_extreme and draw.random() < 0.5:
            return draw.choice([FURTHER, -FURTHER, FURTHER - 1, 1 - FURTHER])
        return draw.randint(-most, most)

    return value


def made(draw, sky, further, ids):
    """A world with these ids."""
    value, plan = values(draw), places.Sky(sky)
    rows = [[number, *position(draw, plan), *(value() for _ in range(further))] for number in ids]
    return World(sky, ["objectId", "x", "y", "z"] + FURTHER_NAMES[:further], rows)


def position(draw, sky):
    """A position next to one on the border of most skies' chunks, so that pairs are near; or on some border."""
    near = (268435456 + draw.randint(-6, 6), draw.randint(-6, 6), draw.randint(-6, 6))
    if draw.random() < 0.6 and places.is_admissible(near):
        return near
    return places.position(draw, sky)


class Asker(Writer):
    """Writes queries that mostly bind over a world, as lists of words."""

    # how often a name is unknown, and how often the items are a star where nothing is grouped
    junk, star = 0.004, 0.12

    def __init__(self, draw, world):
        super().__init__(draw)
        self.world, self.few = world, len(world.rows) > 60
        self.aliases, self.is_join = ["Object"], False

    # -- names and numbers

    def name(self):
        return super().name() if self.chance(self.junk) else self.rand.choice(self.world.names)

    def col(self):
        if self.chance(self.junk):
            return super().col()
        if self.is_join or self.chance(0.1):
            return [self.rand.choice(self.aliases), ".", self.name()]
        return [self.name()]

    def int(self):
        n = self.rand.choice([0, 0, 1, 2, 3, 7, 10, 42, 1000, 268435456, self.rand.randrange(10**6)])
        n = self.rand.choice([FURTHER, self.rand.randrange(10**12), LARGEST]) if self.chance(0.06) else n
        return "0" * self.rand.randrange(1, 4) + str(n) if self.chance(0.05) else str(n)

    def prod(self, depth):
        return self.several(lambda: self.factor(depth), lambda: ["*"], part=0.12)

    def several(self, rule, lead, least=1, most=3, part=0.3):
        words = rule()
        while most > 1 and self.chance(part):
            words, most = words + lead() + rule(), most - 1
        return words

    def listed(self, numbers):
        """Numbers in brackets."""
        words = []
        for n in numbers:
            words += [","] * bool(words) + ["-"] * (n < 0) + [str(abs(n))]
        return ["(", *words, ")"]

    def wrapped(self, words):
        while self.chance(0.15):
            words = ["(", *words, ")"]
        return words

    # -- conditions

    def pred(self, depth):
        pick = self.rand.random()
        if pick < 0.01:
            return self.area()
        if pick < 0.15 and depth:
            return ["(", *self.cond(depth - 1), ")"]
        words = self.expr(1)
        if pick < 0.55:
            return words + [self.rand.choice(COMPARISONS)] + self.expr(1)
        if pick < 0.7:
            return words + self.negation() + ["BETWEEN"] + self.expr(1) + ["AND"] + self.expr(1)
        if pick < 0.85:
            return words + self.negation() + ["IN"] + self.sints()
        return words + ["IS"] + self.negation() + ["NULL"]

    def area(self):
        kind = self.rand.choice(AREAS)
        numbers = {"AREA_BAND": self.heights, "AREA_CAP": self.cap, "AREA_BOX": self.box}[kind]()
        if self.chance(0.03):
            numbers = self.rand.choice([numbers[:-1], numbers + [1]])
        return [kind, *self.listed(numbers)]

    def heights(self):
        far = [self.rand.randint(-300000000, 300000000), self.rand.randint(-(10**12), 10**12)]
        return [self.rand.choice([0, -1, 4, 5, COORDINATE, -COORDINATE, *far]) for _ in range(2)]

    def cap(self):
        centre = [self.rand.randint(-PART // 2, PART // 2) for _ in range(3)]
        if self.world.rows and self.chance(0.6):
            centre = list(self.rand.choice(self.world.rows)[1:4])
        if self.chance(0.05):
            centre[self.rand.randrange(3)] = self.rand.choice([PART, PART + 1, -PART, -PART - 1])
        square = self.rand.choice([0, 1, 9, 16, 25, 26, 10**6, 10**12, 10**15, self.rand.randrange(SQUARE), SQUARE])
        return centre + [SQUARE + 1 if self.chance(0.02) else square]

    def box(self):
        most = self.rand.choice([3, 10, PART])
        a, b = ([self.rand.randint(-most, most) for _ in range(2)] for _ in range(2))
        if places.past(a, b) < 0 and self.chance(0.9):
            a, b = b, a
        return self.heights() + a + b

    def ids(self):
        """A test of ids, of some that are there and of some that may not be; a few are no test of ids, by their form."""
        known = [row[0] for row in self.world.rows] or [1]
        numbers = [self.rand.choice([self.rand.choice(known), self.rand.randrange(50)]) for _ in range(self.rand.randrange(1, 4))]
        words = ["objectId"]
        if self.is_join or self.chance(0.2):
            words = [self.rand.choice(self.aliases), ".", "objectId"]
        words = ["(", *words, ")"] if self.chance(0.1) else words
        if len(numbers) > 1:
            return words + ["NOT"] * self.chance(0.1) + ["IN"] + self.listed(numbers)
        value = self.listed(numbers) if self.chance(0.1) else [str(numbers[0])]
        return words + ["="] + value if self.chance(0.9) else value + ["="] + words

    def joining(self):
        """The test that makes a join of two tables."""
        reach = min(chunk.overlap for chunk in self.world.chunks.values()) ** 2
        names = self.rand.sample(self.aliases, 2) if self.is_join else ["a", "b"]
        if self.chance(0.03):
            names[0] = self.rand.choice([names[1], "a", "b", "Object"])
        square = self.rand.choice([0, 1, 9, 25, 26, 36, reach, reach + 1, self.rand.randrange(reach + 1)])
        return ["CHORD2", "(", names[0], ",", names[1], ")", self.rand.choice(["<", "<="]), str(square)]

    def where(self):
        rand = self.rand
        parts = [self.wrapped(self.area()) for _ in range(rand.choice([0, 0, 0, 0, 0, 1] if self.few else [0, 0, 0, 1, 1, 2]))]
        parts += [self.wrapped(self.ids()) for _ in range(rand.choice([0] * 12 + [1] if self.few else [0, 0, 0, 0, 1, 2]))]
        for _ in range(rand.choice([0, 0, 1] if self.few else [0, 1, 1, 2])):
            parts.append(["(", *self.cond(1), ")"] if self.chance(0.7) else self.neg(1))
        parts += [self.wrapped(self.joining())] * (self.chance(0.98) if self.is_join else self.chance(0.01))
        rand.shuffle(parts)
        words = []
        for part in parts:
            words += ["AND" if words else "WHERE", *part]
        return words

    # -- the whole query

    def short(self):
        """A query that is drawn often."""
        return ["SELECT", "COUNT", "(", "*", ")", "FROM", "Object"]

    def tables(self):
        """FROM, with aliases of all kinds."""
        self.is_join = self.chance(0.3) and not len(self.world.rows) > 130
        if self.is_join:
            self.aliases = self.rand.choice([["a", "b"], ["b", "a"], ["Object", "o"], ["o1", "o2"]])
            first, second = (["Object", *["AS"] * self.chance(0.3), alias] for alias in self.aliases)
            return ["FROM", *first, ",", *second]
        alias = self.rand.choice([None, None, None, "o", "Object", "flux"])
        self.aliases = [alias or "Object"]
        return ["FROM", "Object", *(["AS"] * self.chance(0.3) + [alias] if alias else [])]

    def item(self, keys=None):
        """An item; of a query grouped by these keys, if they are given."""
        pick = self.rand.random()
        if keys is None:
            words = self.expr(2)
        elif pick < 0.15:
            words = ["COUNT", "(", "*", ")"]
        elif pick < 0.25:
            words = [self.rand.choice(["SUM", "AVG"]), "(", self.world.names[-1], "*", self.world.names[-1], ")"]
        elif pick < 0.65 or not keys or self.chance(0.02):
            words = [self.rand.choice(["COUNT", "SUM", "MIN", "MAX", "AVG"]), "(", *self.expr(2), ")"]
        else:
            words = self.rand.choice(keys) if self.chance(0.95) else self.col()
            words = words + [self.rand.choice("+-*"), self.int()] if self.chance(0.5) else words
        return words + (["AS", self.rand.choice(["k", "n", "flux", "x", "q1", "g"])] if self.chance(0.35) else [])

    def query(self):
        tables = self.tables()
        is_grouping = not self.is_join and self.chance(0.45)
        keys = [self.col() for _ in range(self.rand.choice([0, 0, 1, 1, 1, 2, 2, 3, 4]))] if is_grouping else []
        items = self.several(lambda: self.item(keys if is_grouping else None), lambda: [","], most=4)
        items = ["*"] if self.chance(0.01 if is_grouping else self.star) else items
        words = ["SELECT", *items, *tables, *self.where()]
        for key in keys:
            words += [","] if "GROUP" in words else ["GROUP", "BY"]
            words += key
        if self.chance(0.5):
            names = [[items[at + 1]] for at, word in enumerate(items) if word == "AS"]
            key = self.rand.choice(names) if names and self.chance(0.5) else self.rand.choice(keys or [self.col()])
            words += ["ORDER", "BY", *key, *self.rand.choice([[], ["ASC"], ["DESC"], ["DESC"]])]
        if self.chance(0.4):
            words += ["LIMIT", self.rand.choice(["0", "1", "2", "5", "32", "100", self.int()])]
        return words + [";"] * self.chance(0.1)
