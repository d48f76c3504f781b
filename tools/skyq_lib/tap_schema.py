"""What a TAP service says of its tables: TAP_SCHEMA, in an sqlite in memory, and the document of /tables from the same rows."""
import re
import sqlite3
import threading

import numpy as np

from skyq_lib import adql, votable
from skyq_lib.adql_words import RESERVED
from skyq_lib.columns import DEGREES
from skyq_lib.errors import SkyqError
from skyq_lib.markup import HEAD, attributes, element, text
from skyq_lib.scope import TABLE

# The columns of TAP_SCHEMA's tables; those that hold whole numbers have the letter i.
SCHEMA = {
    "schemas": "schema_name utype description schema_index:i",
    "tables": "schema_name table_name table_type utype description table_index:i",
    "columns": "table_name column_name datatype arraysize xtype size:i description utype unit ucd indexed:i principal:i std:i column_index:i",
    "keys": "key_id from_table target_table description utype",
    "key_columns": "key_id from_column target_column",
}
# From which table and column to which: a key each.
KEYS = [("tables", "schemas", "schema_name"), ("columns", "tables", "table_name"), ("keys", "tables", "from_table", "table_name"),
        ("keys", "tables", "target_table", "table_name"), ("key_columns", "keys", "key_id")]
MOST_STEPS = 2000               # of 10,000 instructions of sqlite, a query of TAP_SCHEMA
LONGEST_TEXT = 10**5            # bytes of a value or a row of it
MOST_BYTES = 10**7              # of the answer's texts
MOST_MEMORY = 2**26             # bytes that sqlite has
FUNCTIONS = set("count min max sum avg total lower upper length like abs coalesce ifnull nullif round substr trim".split())
TOO_LARGE = "the answer of TAP_SCHEMA is too large; ask for less of it"
READS = (sqlite3.SQLITE_SELECT, sqlite3.SQLITE_READ)
# As ADQL reserves them, beside those that the parser knows; a column that is called so is quoted.
MORE_RESERVED = set("SIZE DATE TIME TIMESTAMP YEAR MONTH DAY HOUR MINUTE SECOND VALUE VALUES TABLE COLUMN INDEX USER POSITION POINT"
                    " CIRCLE BOX POLYGON REGION AREA DISTANCE CONTAINS COUNT SUM MIN MAX AVG".split())


def quoted(name):
    """A column's name as ADQL takes it: in double quotes where it is no plain name."""
    if re.fullmatch(r"[A-Za-z][A-Za-z0-9_]*", name) and name.upper() not in RESERVED | MORE_RESERVED:
        return name
    escaped = name.replace('"', '""')
    return f'"{escaped}"'


def fields_of(catalogue):
    """The columns of the one table as votable.Fields, as `SELECT *` gives them."""
    kinds = ["float64", "float64"]
    if catalogue.has_degrees:
        kinds = [catalogue.engine_column(name).type for name in DEGREES]
    found = [votable.Field(catalogue.id or "objectId", "long", None, None, "meta.id;meta.main", "the number of the object")]
    for name, kind, ucd, what in ((catalogue.ra, kinds[0], "pos.eq.ra", "right ascension"), (catalogue.dec, kinds[1], "pos.eq.dec", "declination")):
        found.append(votable.Field(name, *votable.type_of(kind), "deg", f"{ucd};meta.main", what))
    for column in catalogue.columns:
        if column.name not in DEGREES:
            form = votable.type_of("U", column.words) if column.kind == "word" else votable.type_of(column.type)
            found.append(votable.Field(column.source, *form, votable.unit_text(column.unit), None, column.description))
    return found


class Tables:
    """The tables of a catalogue: queries of TAP_SCHEMA, and the document of /tables. Its calls may come from any thread."""

    def __init__(self, catalogue):
        self.catalogue, self.fields = catalogue, fields_of(catalogue)
        self.ucds = {field.name: field.ucd for field in self.fields if field.ucd}
        self.lock = threading.Lock()
        self.steps = 0
        self.base = sqlite3.connect(":memory:", check_same_thread=False)
        self.fill()
        self.base.setlimit(sqlite3.SQLITE_LIMIT_LENGTH, LONGEST_TEXT)
        self.base.execute("PRAGMA temp_store=MEMORY")
        self.base.execute(f"PRAGMA hard_heap_limit={MOST_MEMORY}")
        self.base.set_authorizer(allowed)
        self.base.set_progress_handler(self.step, 10000)

    def fill(self):
        """Makes TAP_SCHEMA and its rows."""
        add = self.add
        self.base.execute("ATTACH ':memory:' AS tap_schema")
        for name, columns in SCHEMA.items():
            listed = ", ".join('"' + column.split(":")[0] + '"' for column in columns.split())
            self.base.execute(f"CREATE TABLE tap_schema.{name}({listed})")
        add("schemas", "default", None, "the catalogue", 1)
        add("schemas", "tap_schema", None, "the tables and columns of this service", 2)
        add("tables", "default", TABLE, "table", None, f"{self.catalogue.rows} objects of {self.catalogue.source}", 1)
        for place, field in enumerate(self.fields):
            is_main = bool(field.ucd)
            self.add_column(TABLE, quoted(field.name), field, is_main, False, place)
        for number, (name, columns) in enumerate(SCHEMA.items(), 2):
            add("tables", "tap_schema", f"tap_schema.{name}", "table", None, f"TAP_SCHEMA: {name}", number)
            for place, column in enumerate(columns.split()):
                word, _, kind = column.partition(":")
                field = votable.Field(word, *(("int", None) if kind else ("char", "*")))
                self.add_column(f"tap_schema.{name}", quoted(word), field, False, True, place)
        for number, (table, target, column, *other) in enumerate(KEYS, 1):
            add("keys", f"k{number}", f"tap_schema.{table}", f"tap_schema.{target}", None, None)
            add("key_columns", f"k{number}", column, *(other or [column]))

    def add(self, table, *values):
        self.base.execute(f"INSERT INTO tap_schema.{table} VALUES({','.join('?' * len(values))})", values)

    def add_column(self, table, name, field, is_main, is_std, place):
        self.add("columns", table, name, field.datatype, field.arraysize, None, None, field.description, None, field.unit, field.ucd,
                 int(is_main and field.ucd.startswith("meta.id")), int(is_main), int(is_std), place)

    def step(self):
        """Ends a query of TAP_SCHEMA that takes too long."""
        self.steps += 1
        return self.steps > MOST_STEPS

    # -- queries

    @staticmethod
    def are_asked(query):
        """Whether a query is of TAP_SCHEMA."""
        return bool(re.search(r"(?i)\btap_schema\s*\.", re.sub(r"'[^']*'", "''", query)))

    def ask(self, query, maxrec):
        """The answer to a query of TAP_SCHEMA: an astropy Table, and whether rows are left out."""
        found = re.fullmatch(r"(?is)\s*select\s+(distinct\s+)?top\s+(\d{1,9})\s+(.*?);?\s*", query)
        most = min(int(found[2]), maxrec + 1) if found else maxrec + 1
        inner = f"SELECT {found[1] or ''}{found[3]}" if found else query.rstrip().rstrip(";")
        with self.lock:
            self.steps = 0
            try:
                cursor = self.base.execute(f"SELECT * FROM ({inner}\n) LIMIT {most}")
                rows = some_rows(cursor)
            except MemoryError:
                raise SkyqError(TOO_LARGE) from None
            except (sqlite3.Error, sqlite3.Warning) as fault:
                raise SkyqError(f"the query of TAP_SCHEMA is not answered: {fault}") from None
        names = [one[0] for one in cursor.description]
        return table_of(names, rows[:maxrec]), len(rows) > maxrec

    # -- the document

    def document(self):
        """The document of /tables."""
        with self.lock:
            self.steps = 0
            schemas = self.base.execute("SELECT schema_name, description FROM tap_schema.schemas ORDER BY schema_index").fetchall()
            found = "".join(f"<schema><name>{name}</name>{element('description', what)}{self.tables_text(name)}</schema>" for name, what in schemas)
        return (f'{HEAD}<vosi:tableset xmlns:vosi="http://www.ivoa.net/xml/VOSITables/v1.0" xmlns:vs="http://www.ivoa.net/xml/VODataService/v1.1"'
                f' xmlns:xsi="http://www.w3.org/2001/XMLSchema-instance">{found}</vosi:tableset>')

    def tables_text(self, schema):
        rows = self.base.execute("SELECT table_name, description FROM tap_schema.tables WHERE schema_name=? ORDER BY table_index", (schema,)).fetchall()
        return "".join(
            f'<table type="table"><name>{text(name)}</name>{element("description", what)}{self.columns_text(name)}{self.keys_text(name)}</table>'
            for name, what in rows
        )

    def columns_text(self, table):
        rows = self.base.execute(
            "SELECT column_name, description, unit, ucd, datatype, arraysize, std, indexed FROM tap_schema.columns WHERE table_name=?"
            " ORDER BY column_index", (table,),
        ).fetchall()
        found = ""
        for name, what, unit, ucd, datatype, arraysize, std, indexed in rows:
            kind = 'xsi:type="vs:VOTableType"' + (f' arraysize="{arraysize}"' if arraysize else "")
            inner = element("name", name) + element("description", what) + element("unit", unit) + element("ucd", ucd)
            inner += element("dataType", datatype, kind) + element("flag", "indexed" if indexed else None)
            found += f"<column{attributes(std='true' if std else None)}>{inner}</column>"
        return found

    def keys_text(self, table):
        rows = self.base.execute("SELECT target_table, from_column, target_column FROM tap_schema.keys JOIN tap_schema.key_columns USING(key_id)"
                                 " WHERE from_table=? ORDER BY key_id", (table,)).fetchall()
        return "".join(
            f"<foreignKey><targetTable>{target}</targetTable><fkColumn><fromColumn>{a}</fromColumn><targetColumn>{b}</targetColumn></fkColumn></foreignKey>"
            for target, a, b in rows
        )


def some_rows(cursor):
    """The rows of a query, if they are not too large."""
    rows, size = [], 0
    for row in cursor:
        rows.append(row)
        size += sum(len(value) for value in row if isinstance(value, (str, bytes)))
        if size > MOST_BYTES:
            raise SkyqError(TOO_LARGE)
    return rows


def allowed(action, first, second, base, _):
    """What sqlite may do for a query: read the tables of TAP_SCHEMA, and call some functions."""
    if action == sqlite3.SQLITE_FUNCTION:
        is_allowed = (second or "").lower() in FUNCTIONS
    else:
        is_allowed = action in READS and (base or "tap_schema").lower() == "tap_schema"
    return sqlite3.SQLITE_OK if is_allowed else sqlite3.SQLITE_DENY


def table_of(names, rows):
    """An astropy Table of rows of words and whole numbers; a column of whole numbers is so by its name or by its values."""
    from astropy.table import MaskedColumn, Table

    numbers = {column.split(":")[0] for columns in SCHEMA.values() for column in columns.split() if column.endswith(":i")}
    table = Table()
    for place, name in enumerate(names):
        values = [row[place] for row in rows]
        known = [value for value in values if value is not None]
        is_whole = all(isinstance(value, int) for value in known) and (known or name in numbers)
        blank, kind = (0, "i4") if is_whole else ("", "U" if known else "U1")
        filled = [blank if value is None else value if is_whole else str(value) for value in values]
        table[name] = MaskedColumn(np.array(filled, kind), mask=np.array([value is None for value in values], bool))
    return table
