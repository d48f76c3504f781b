"""What a query over objects and their sources means over two flat lists, computed the dull way: each object is paired with each
source, and the whole WHERE is worked out on the pair.

Written from the rules in docs/FORMATS.md alone. No list of an object's sources is made, and only the plan speaks of chunks.
`random_children.py` and `cut_texts.py` compare the program with it.
"""
import flat_answers
from sql_trees import COORDINATE, FURTHER, IDS, Col, Compare, Refused


class Children:
    """A world with a source table: the names of its columns, and its rows in ascending sourceId."""

    def __init__(self, world, source_names, sources):
        self.names, self.rows, self.chunks, self.chunk_of = world.names, world.rows, world.chunks, world.chunk_of
        self.sky, self.source_names, self.sources = world.sky, source_names, sources


class ChildBound(flat_answers.Bound):
    """A query over objects and their sources that binds, over a world with a source table."""

    known_tables = ("Object", "Source")

    # -- columns

    def names_of(self, table):
        """The columns of a table; one of another name has none."""
        return {"Object": self.world.names, "Source": self.world.source_names}.get(table, [])

    def table_of(self, col):
        """The first table of the query that has the column, or None."""
        for (name, _), qualifier in zip(self.query.tables, self.qualifiers):
            if col.table in (None, qualifier) and col.name in self.names_of(name.text):
                return name.text
        return None

    def is_known(self, col):
        return self.table_of(col) is not None

    def size(self, col):
        table = self.table_of(col)
        at = self.names_of(table).index(col.name)
        if table == "Source":
            return IDS if at < 2 else FURTHER
        return IDS if at == 0 else COORDINATE if at < 4 else FURTHER

    # -- the form

    def check_grouping(self):
        """A query of another form is refused as that, whatever it groups."""

    def check_join(self):
        names, aliases = [name.text for name, _ in self.query.tables], [alias for _, alias in self.query.tables]
        is_formed = names == ["Object", "Source"] and None not in aliases and aliases[0] != aliases[1]
        is_formed = is_formed and all(col.table for col in self.columns())
        is_formed = is_formed and not (self.query.star or self.is_grouping or self.chords)
        if not is_formed or sum(self.is_link(test) for test in self.top) != 1:
            raise Refused("join form")

    def is_link(self, test):
        """The test equates the two objectIds, each alone."""
        if not isinstance(test, Compare) or test.op != "=":
            return False
        sides = [test.left.alone(), test.right.alone()]
        are_ids = all(isinstance(side, Col) and side.name == "objectId" for side in sides)
        return are_ids and {side.table for side in sides} == set(self.qualifiers)

    def check_radius(self):
        """No distance is in such a query."""

    # -- the answer

    def picks(self):
        objects = [dict(zip(self.world.names, row)) for row in self.world.rows]
        sources = [dict(zip(self.world.source_names, row)) for row in self.world.sources]
        return [(o, s) for o in objects for s in sources if self.query.cond.truth((o, s)) is True]


def transcript(world, lines):
    """What the queries with these lines answer."""
    return flat_answers.text_of(flat_answers.block(lambda: ChildBound(line, world).block()) for line in lines)
