"""The tables of a catalogue's chunks in PostgreSQL, in one database or in several.

In a schema of its own: `object`, the rows, and `object_near`, for each subchunk its rows and those near it; both are cut
by chunk into tables object_C and object_near_C. A join of near pairs in a chunk is one statement over its two tables: both
sides have the number of a subchunk, and the near rows an index by subchunk and height.
"""
import contextlib
import hashlib
import re

import numpy as np

from skyq_lib.columns import POSITION, numbers_of_text
from skyq_lib.errors import SkyqError, need
from skyq_lib.partition import Partition
from skyq_lib.pg_text import quoted
from skyq_lib.progress import Progress

CHUNK, SUB = "#chunk", "#sub"       # no column of a catalogue has such a name
MARK = "skyq chunk tables of "
FETCH = "10000"                     # rows that a foreign table gives at a time


def mark(catalogue):
    """What the schema of a catalogue's tables is marked with."""
    made = hashlib.sha256()
    for path in (catalogue.sky_path, catalogue.csv_path):
        with open(path, "rb") as file:
            made.update(file.read())
    return f"{MARK}{made.hexdigest()[:32]}"


def mark_of(base, schema):
    """The mark of a schema of ours, or None."""
    found = base.execute("SELECT obj_description(oid, 'pg_namespace') FROM pg_namespace WHERE nspname = %s", (schema,)).fetchone()
    return found[0] if found and (found[0] or "").startswith(MARK) else None


def make_schema(base, schema):
    """An empty schema, in place of one of ours; that of someone else is not touched."""
    is_there = base.execute("SELECT 1 FROM pg_namespace WHERE nspname = %s", (schema,)).fetchone()
    if is_there and mark_of(base, schema) is None:
        raise SkyqError(f"the schema {schema} is there, and was not made by skyq: choose another with --schema")
    base.execute(f"DROP SCHEMA IF EXISTS {quoted(schema)} CASCADE")
    base.execute(f"CREATE SCHEMA {quoted(schema)}")


class Rows:
    """A catalogue's rows as lines of CSV, and where they lie."""

    def __init__(self, catalogue):
        with open(catalogue.csv_path, "rb") as file:
            text = file.read()
        self.header, numbers = numbers_of_text(text, catalogue.csv_path)
        self.lines = text.split(b"\n")[1 : len(numbers) + 1]
        self.x, self.y, self.z = (np.ascontiguousarray(numbers[:, self.header.index(name)]) for name in POSITION[1:])
        self.partition = Partition.load(catalogue.sky_path)
        self.chunk, self.sub = self.partition.place(self.x, self.y, self.z)

    def parts(self):
        """For each chunk that holds rows: its number, the text of its rows, that of its subchunks' near rows, and their counts."""
        for number, own, overlap in self.partition.near_chunks(self.chunk, self.x, self.y, self.z):
            at = np.concatenate([own, overlap])
            places, subs = self.partition.near_subs(number, self.x[at], self.y[at], self.z[at])
            yield number, self.text(number, own, self.sub[own]), self.text(number, at[places], subs), len(own), len(places)

    def text(self, number, places, subs):
        lines = self.lines
        return b"".join(b"%d,%d,%s\n" % (number, sub, lines[k]) for k, sub in zip(places.tolist(), subs.tolist()))


def load(catalogue, dsn, schema, far):
    """Makes the tables; returns a line that says what there is."""
    psycopg = need("psycopg", "PostgreSQL")
    rows = Rows(catalogue)
    with contextlib.ExitStack() as stack:
        bases = [stack.enter_context(psycopg.connect(one)) for one in (dsn, *far)]
        with bases[0].transaction():
            loader = Loader(bases, [dsn, *far], schema, rows.header)
            loader.make()
            told = loader.fill(rows, len(np.unique(rows.chunk)))
            for base in bases:
                base.execute(f"COMMENT ON SCHEMA {quoted(schema)} IS '{mark(catalogue)}'")
            for base in bases[1:]:      # the first, which names their tables, is last
                base.commit()
        for base in bases:
            base.autocommit = True
            for name in loader.names(base):
                base.execute(f"ANALYZE {quoted(schema)}.{quoted(name)}")
    return f"{schema}: {told}"


class Loader:
    """Makes and fills the tables, in turn in each of the databases."""

    def __init__(self, bases, dsns, schema, header):
        self.bases, self.dsns, self.schema = bases, dsns, schema
        self.columns = [f"{quoted(CHUNK)} int NOT NULL", f"{quoted(SUB)} int NOT NULL", *(f"{quoted(name)} bigint" for name in header)]

    def make(self):
        """Makes the schema in each database, and the two tables that are cut into chunks."""
        for base in self.bases:
            make_schema(base, self.schema)
        for name in ("object", "object_near"):
            self.bases[0].execute(f"CREATE TABLE {self.named(name)} ({', '.join(self.columns)}) PARTITION BY LIST ({quoted(CHUNK)})")
        for place in range(1, len(self.bases)):
            self.make_server(place)

    def named(self, name):
        return f"{quoted(self.schema)}.{name}"

    def server(self, place):
        return quoted(f"skyq_{self.schema}_{place}")

    def make_server(self, place):
        """Tells the first database where another one is."""
        from psycopg import sql
        from psycopg.conninfo import conninfo_to_dict

        given = conninfo_to_dict(self.dsns[place])
        user = {name: given.pop(name) for name in ("user", "password") if name in given}
        # with its own estimates the planner leaves the join of a far chunk to where the chunk's tables and index are
        options = {**given, "fetch_size": FETCH, "async_capable": "true", "use_remote_estimate": "true"}
        first = self.bases[0]
        first.execute("CREATE EXTENSION IF NOT EXISTS postgres_fdw")
        first.execute(f"DROP SERVER IF EXISTS {self.server(place)} CASCADE")
        for head, words in ((f"CREATE SERVER {self.server(place)} FOREIGN DATA WRAPPER postgres_fdw", options),
                            (f"CREATE USER MAPPING FOR CURRENT_USER SERVER {self.server(place)}", user)):
            listed = sql.SQL(", ").join(sql.SQL("{} {}").format(sql.Identifier(name), sql.Literal(str(value))) for name, value in words.items())
            first.execute(sql.SQL(head + " OPTIONS ({})").format(listed) if words else head)

    def fill(self, rows, total):
        """Makes each chunk's tables and copies its rows; returns what to say of it."""
        counts, near, chunks = [0] * len(self.bases), 0, 0
        with Progress("chunks", total) as bar:
            for number, own, subs, count, count_near in rows.parts():
                place = chunks % len(self.bases)
                for name, text in ((f"object_{number}", own), (f"object_near_{number}", subs)):
                    self.make_part(name, number, place)
                    with self.bases[place].cursor().copy(f"COPY {self.named(name)} FROM STDIN (FORMAT csv)") as copy:
                        copy.write(text)
                self.bases[place].execute(f"CREATE INDEX ON {self.named(f'object_near_{number}')} ({quoted(SUB)}, z)")
                counts[place], near, chunks = counts[place] + count, near + count_near, chunks + 1
                bar.step()
        parts = f", {counts[0]} of them here and {', '.join(str(one) for one in counts[1:])} far" if counts[1:] else ""
        return f"{sum(counts)} rows{parts}, in {chunks} chunks, and {near} rows of subchunks"

    def make_part(self, name, number, place):
        """Makes a chunk's table: a part of the first database's table, or a table elsewhere and a foreign table that is the part."""
        of = self.named(name.rsplit("_", 1)[0])
        if place == 0:
            self.bases[0].execute(f"CREATE TABLE {self.named(name)} PARTITION OF {of} FOR VALUES IN ({number})")
            return
        self.bases[place].execute(f"CREATE TABLE {self.named(name)} ({', '.join(self.columns)})")
        self.bases[0].execute(f"CREATE FOREIGN TABLE {self.named(name)} PARTITION OF {of} FOR VALUES IN ({number}) SERVER {self.server(place)}"
                              f" OPTIONS (schema_name '{self.schema}', table_name '{name}')")

    def names(self, base):
        """The tables of the schema that hold rows in a database."""
        found = base.execute("SELECT relname FROM pg_class WHERE relnamespace = %s::regnamespace AND relkind = 'r'", (quoted(self.schema),))
        return [row[0] for row in found.fetchall()]


def items_of(sql, catalogue):
    """The headings of a query's items, as the engine writes them."""
    tokens = re.findall(r"\w+|[<>!]=|<>|\S", sql)
    words = [token.upper() for token in tokens]
    if "SELECT" not in words or "FROM" not in words:
        return []
    with open(catalogue.csv_path, "rb") as file:
        header = file.readline().decode().strip().split(",")
    begin, end = words.index("SELECT") + 1, words.index("FROM")
    if tokens[begin:end] == ["*"]:
        ends = [k for k in range(end, len(words)) if words[k] in ("WHERE", "GROUP", "ORDER", "LIMIT", ";")]
        parts = [[word for word in part.split() if word.upper() != "AS"] for part in " ".join(tokens[end + 1 : (ends or [len(words)])[0]]).split(",")]
        return header if len(parts) == 1 else [f"{part[-1]}.{name}" for part in parts for name in header]
    found, item = [], []
    for token in [*tokens[begin:end], ","]:
        if token != ",":
            item.append(token.upper() if token.upper() in ("COUNT", "SUM", "MIN", "MAX", "AVG", "AS") else token)
            continue
        found.append(item[-1] if "AS" in item else "".join(item))
        item = []
    return found
