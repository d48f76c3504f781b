"""The command pg: the chunk tables of a catalogue in PostgreSQL, and the engine's chunk queries and merges run there.

`pg load` makes the tables, one for each chunk and one for its subchunks with their near rows; with --far some of the chunks
are in other databases, as foreign tables (postgres_fdw). `pg query` asks the program to explain a query, runs the chunk
queries and the merge in PostgreSQL, and gives the same answer, row for row.
"""
import re
import sys

from skyq_lib import engine, pg_load, query, tables, transcript, translate
from skyq_lib.columns import Catalogue
from skyq_lib.errors import SkyqError, need
from skyq_lib.pg_chunk import ChunkQuery
from skyq_lib.pg_merge import Merge
from skyq_lib.pg_text import quoted

TOGETHER = 64               # chunks in one statement
PIECES = "skyq_pieces"


def add_words(parser, command):
    actions = parser.add_subparsers(dest="action", required=True, metavar="load|query")
    for name, what in (("load", "makes the tables of chunks"), ("query", "runs a query over them")):
        one = actions.add_parser(name, help=what, description=what)
        one.add_argument("folder", metavar="FOLDER", help="a catalogue folder, as skyq ingest makes it")
        one.add_argument("dsn", metavar="DSN", help="the database, as libpq takes it: 'host=.. dbname=..' or postgresql://..")
        if name == "query":
            one.add_argument("text", metavar="SQL", help="the engine's SQL, or - for standard input; with --adql ADQL")
            one.add_argument("--adql", action="store_true", help="the query is ADQL, in degrees and the table's own units")
            one.add_argument("-o", "--output", metavar="FILE", help="a file for the table, by its ending .fits, .vot, .ecsv or .csv")
        else:
            one.add_argument("--far", metavar="DSN", action="append", default=[], help="a further database, which takes its part of the chunks")
        one.add_argument("--schema", default="skyq", help="the schema of the tables, skyq")


def run(words):
    """Runs `pg load` or `pg query`."""
    psycopg = need("psycopg", "PostgreSQL")
    catalogue = Catalogue.load(words.folder)
    if not re.fullmatch(r"[A-Za-z_][A-Za-z0-9_]{0,49}", words.schema):
        raise SkyqError("--schema is a name of letters, digits and _")
    try:
        if words.action == "load":
            print(pg_load.load(catalogue, words.dsn, words.schema, words.far))
        else:
            ask(catalogue, words)
    except psycopg.Error as fault:
        raise SkyqError(f"PostgreSQL: {reason(fault)}") from None


def reason(fault):
    """The first line of what PostgreSQL says."""
    lines = str(fault).strip().splitlines()
    return lines[0] if lines else type(fault).__name__


def ask(catalogue, words):
    """Answers a query, and writes or prints the table."""
    text = sys.stdin.read() if words.text == "-" else words.text
    if words.output:
        tables.format_of(words.output)
    made = translate.translate(text, catalogue) if words.adql else None
    with connected(words.dsn, catalogue, words.schema) as base:
        found = answer(base, catalogue, made.sql if made else " ".join(text.split()), words.schema)
    if made:
        query.deliver(query.result(made, found, catalogue).table, words.output, found.chunks)
    elif found.kind == "refused":
        raise SkyqError(f"the engine refuses it: {found.why}")
    else:
        query.deliver(query.plain_table(found, catalogue), words.output, found.chunks)


def connected(dsn, catalogue, schema):
    """A connection to the database that holds the catalogue's tables; a SkyqError if it holds none, or those of another."""
    psycopg = need("psycopg", "PostgreSQL")
    base = psycopg.connect(dsn, autocommit=True)
    base.execute("SET jit = off")       # it would compile the joins of each chunk anew, which takes longer than to run them
    found = pg_load.mark_of(base, schema)
    if found != pg_load.mark(catalogue):
        base.close()
        what = "has no chunk tables of skyq" if found is None else "holds the chunks of another catalogue, or of another sky plan"
        raise SkyqError(f"the schema {schema} {what}: skyq pg load {catalogue.folder} DSN makes them")
    return base


# ---- queries


def answer(base, catalogue, sql, schema):
    """The transcript.Answer to a query of the engine's SQL, by the tables of a schema."""
    return answers(base, catalogue, [sql], schema)[0]


def answers(base, catalogue, queries, schema):
    """The Answers to queries of the engine's SQL."""
    blocks = explanations(catalogue, queries)
    return [run_block(base, catalogue, number, block, one, schema) for number, (block, one) in enumerate(zip(blocks, queries), 1)]


def explanations(catalogue, queries):
    """The lines that the program explains each query in, for run_block."""
    text = engine.run("explain", catalogue.folder, "".join(f"{one}\n" for one in queries)).decode("utf-8", "replace")
    blocks = explained(text)
    if len(blocks) != len(queries):
        raise SkyqError(f"the program explained {len(blocks)} of {len(queries)} queries")
    return blocks


def explained(text):
    """The lines of each query of an explain text."""
    blocks, lines = [], text.split("\n")[:-1]
    for line in lines:
        if line == f"query {len(blocks) + 1}":
            blocks.append([])
        elif blocks:
            blocks[-1].append(line)
    return blocks


def run_block(base, catalogue, number, lines, sql, schema):
    """The Answer to one explained query."""
    if lines[0].startswith("refused: "):
        return transcript.Answer(number, "refused", lines[0][9:])
    words = dict(line.partition(":")[::2] for line in lines)
    chunk = ChunkQuery(words["chunk"])
    chunks = [int(one) for one in words["chunks"].split()]
    merge = Merge(words["merge"], chunk, PIECES)
    fill(base, chunk, chunks, schema)
    if merge.too_large:
        total = base.execute(merge.too_large).fetchone()
        if total:
            return transcript.Answer(number, "refused", f"total {int(total[0])} out of range")
    with base.cursor().copy(f"COPY ({merge.sql}) TO STDOUT (FORMAT csv, NULL 'NULL')") as copy:
        rows = b"".join(bytes(part) for part in copy)
    headings = headings_of(sql, catalogue, len(merge.items))
    count = rows.count(b"\n")
    return transcript.Answer(number, "answered", "", headings, transcript.columns_of(rows, len(merge.items), count, number), count, len(chunks))


def fill(base, chunk, chunks, schema):
    """Puts the pieces of all chunks of a query's plan into a table of this session."""
    columns = ", ".join(f"c{number} numeric" for number in range(1, len(chunk.items) + 1))
    base.execute(f"DROP TABLE IF EXISTS pg_temp.{PIECES}")
    base.execute(f"CREATE TEMPORARY TABLE {PIECES} ({columns})")
    for at in range(0, len(chunks), TOGETHER):
        parts = [chunk.sql(table(schema, "object", one), table(schema, "object_near", one), quoted(pg_load.SUB)) for one in chunks[at : at + TOGETHER]]
        base.execute(f"INSERT INTO {PIECES} " + " UNION ALL ".join(f"({part})" for part in parts))
    if len(chunks) > TOGETHER:
        base.execute(f"ANALYZE {PIECES}")


def table(schema, name, chunk):
    return f"{quoted(schema)}.{name}_{chunk}"


def headings_of(sql, catalogue, count):
    """The headings that the engine writes: aliases, or the items as they are printed; c1, c2 .. where they cannot be told."""
    parts = pg_load.items_of(sql, catalogue)
    return parts if len(parts) == count else [f"c{number}" for number in range(1, count + 1)]
