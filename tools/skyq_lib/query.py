"""The commands query, cone, pairs and read; `answer` joins translation, engine and table for them and for TAP."""
import dataclasses
import re
import sys

import numpy as np

from skyq_lib import adql, engine, exact, outs, tables, transcript, translate
from skyq_lib.columns import Catalogue
from skyq_lib.errors import SkyqError, count_of
from skyq_lib.grid import arcsec_of_text
from skyq_lib.progress import working

MOST_SHOWN = 200                    # rows on a terminal


@dataclasses.dataclass
class Result:
    """An answered query: an astropy Table with units, whether rows were left out by maxrec, the chunks scanned, the SQL."""
    table: object
    is_cut: bool
    chunks: int
    sql: str


def answer(catalogue, text, ask, maxrec=None, is_exact=False):
    """The Result of an ADQL text. `ask` takes the engine's SQL, one line, and returns its transcript.Answer.

    A SkyqError says in the user's words why there is none.
    """
    made = translate.translate(text, catalogue, maxrec, is_exact)
    return result(made, ask(made.sql), catalogue, maxrec)


def result(made, found, catalogue, maxrec=None):
    """The Result of a Translation and the Answer to its SQL."""
    if found.kind != "answered":
        raise SkyqError(translate.refusal(found.why, made, catalogue))
    columns, count = found.columns, found.count
    if len(columns) != len(made.places):
        raise SkyqError(f"the program answered {count_of(len(columns), 'column')} instead of {len(made.places)}")
    if made.is_filtered:
        places = exact.kept(made, found, catalogue)[: made.top]
        columns, count = [taken(values, places) for values in columns], len(places)
    is_cut = maxrec is not None and count > maxrec
    if is_cut:
        columns = [taken(values, np.arange(maxrec)) for values in columns]
    return Result(table_of(made.outs, columns), is_cut, found.chunks, made.sql)


def taken(values, places):
    """The rows of a column at some places."""
    return dataclasses.replace(values, whole=values.whole[places], null=None if values.null is None else values.null[places])


def table_of(columns, answered):
    """An astropy Table of Outs over the Values of an answer."""
    from astropy.table import Column, MaskedColumn, Table

    table = Table()
    for out in columns:
        values = out.read(answered)
        kind = MaskedColumn if np.ma.getmaskarray(values).any() else Column
        values = values if kind is MaskedColumn else values.data
        table[out.name] = kind(values, unit=out.unit, description=out.description)
    return table


# ---- the commands


def add_words(parser, command):
    """The words of one of the commands."""
    add = parser.add_argument
    if command == "read":
        add("transcript", metavar="TRANSCRIPT", help="what the program wrote, a file, or - for standard input")
        add("--folder", help="the catalogue folder that was asked, which gives columns their names, units and scales")
        add("--query", type=int, metavar="K", help="only the answer of query K")
    else:
        add("folder", metavar="FOLDER", help="a catalogue folder, as skyq ingest makes it")
    if command == "query":
        add("adql", metavar="ADQL", help="SELECT .. FROM Object .., or - for standard input")
    if command == "cone":
        add("ra", metavar="RA", help="right ascension: degrees, or as 10h45m03.6s")
        add("dec", metavar="DEC", help="declination: degrees, or as 59d41m04s")
    if command in ("cone", "pairs"):
        add("radius", metavar="RADIUS", help="an angle with its unit, as 30arcsec, 5arcmin or 1deg")
        add("--where", metavar="COND", help="a condition of ADQL" + (" on a and b" if command == "pairs" else ""))
    if command != "read":
        add("--exact", action="store_true", help="decide on the degrees that ingest --degrees kept")
        add("--show", action="store_true", help="print the engine's SQL instead of asking it")
        add("--workers", type=int, metavar="N", help="threads that scan, 0 to 16")
    add("-o", "--output", metavar="FILE", help="a file for the table, by its ending .fits, .vot, .ecsv or .csv")


def run(words):
    """Runs the command that the words are of."""
    if words.output:
        tables.format_of(words.output)
    if words.command == "read":
        return read(words)
    catalogue = Catalogue.load(words.folder)
    text = {"query": query_text, "cone": cone_text, "pairs": pairs_text}[words.command](words, catalogue)
    engine.judge_workers(words.workers)
    if words.show:
        print(translate.translate(text, catalogue, exact=words.exact).sql)
        return 0
    with working("asking the program"):
        found = answer(catalogue, text, lambda sql: engine.ask(words.folder, [sql], words.workers)[0], is_exact=words.exact)
    if words.command != "query":
        in_arcsec(found.table, 6 if catalogue.has_degrees else 4)
    deliver(found.table, words.output, found.chunks)
    return 0


def in_arcsec(table, decimals):
    """Brings the last column, a separation, to arcseconds."""
    last = table.columns[-1]
    last.convert_unit_to("arcsec")
    last[:] = np.round(last, decimals)


def deliver(table, path, chunks):
    """Writes a table to a file; or on a terminal for people, and in a pipe as CSV."""
    told = f"{count_of(len(table), 'row')}, {count_of(chunks, 'chunk')} scanned"
    if path:
        tables.write_table(table, path)
        print(f"{path}: {told}")
    elif sys.stdout.isatty():
        print("\n".join(table[:MOST_SHOWN].pformat(max_lines=-1, max_width=-1)))
        print(told if len(table) <= MOST_SHOWN else f"..\n{told}; -o FILE writes them all")
    else:
        tables.write_table(table, None)


def query_text(words, catalogue):
    return sys.stdin.read() if words.adql == "-" else words.adql


def quoted(name):
    escaped = name.replace('"', '""')
    return f'"{escaped}"'


def position(catalogue, table=""):
    return f"POINT({table}{quoted(catalogue.ra)},{table}{quoted(catalogue.dec)})"


def condition(words):
    """The condition of --where in brackets, with AND before it."""
    if not words.where:
        return ""
    adql.read_condition(words.where)
    return f" AND ({words.where}\n)"


def cone_text(words, catalogue):
    radius = degrees_of_radius(words.radius)
    if radius > 180:
        raise SkyqError(f"the radius {words.radius} is more than 180deg")
    ra, dec = degrees_of_text(words.ra, "hourangle"), degrees_of_text(words.dec, "deg")
    apart = f"DISTANCE({position(catalogue)},POINT({ra!r},{dec!r}))"
    return f"SELECT *,{apart} AS separation FROM Object WHERE {apart}<={radius!r}{condition(words)} ORDER BY {apart}"


def pairs_text(words, catalogue):
    apart = f"DISTANCE({position(catalogue, 'a.')},{position(catalogue, 'b.')})"
    own = quoted(catalogue.id or "objectId")
    where = f"{apart}<={degrees_of_radius(words.radius)!r} AND a.{own}<b.{own}{condition(words)}"
    return f"SELECT a.*,b.*,{apart} AS separation FROM Object AS a JOIN Object AS b ON {where}"


def degrees_of_radius(text):
    return arcsec_of_text(text) / 3600


def degrees_of_text(text, unit_of_colons):
    """The degrees of a coordinate: a number of degrees, or hours, degrees, minutes and seconds."""
    try:
        found = float(text)
    except ValueError:
        found = degrees_of_parts(text, unit_of_colons)
    if not np.isfinite(found):
        raise SkyqError(f"{text} is no coordinate: write degrees, as 161.265, or 10h45m03.6s or -59d41m04s")
    return found


def degrees_of_parts(text, unit_of_colons):
    """The degrees of hours or degrees, minutes and seconds; NaN of what is none."""
    from astropy.coordinates import Angle

    try:
        return float(Angle(text, unit=unit_of_colons if ":" in text else None).deg)
    except Exception:       # whatever astropy makes of a faulty text
        return np.nan


# ---- transcripts


def read(words):
    """Prints the answers of a transcript, or writes one to a file."""
    if words.transcript == "-":
        data = sys.stdin.buffer.read()
    else:
        with open(words.transcript, "rb") as file:
            data = file.read()
    try:
        found = transcript.read(data)
        if not found:
            raise SkyqError("there is no query in it")
    except SkyqError as fault:
        raise SkyqError(fault.what, None if words.transcript == "-" else words.transcript) from None
    catalogue = Catalogue.load(words.folder) if words.folder else None
    if words.query is not None:
        found = [one for one in found if one.number == words.query]
        if not found:
            raise SkyqError(f"the transcript has no query {words.query}")
    if words.output:
        return write_one(found, words.output, catalogue)
    for one in found:
        print(f"query {one.number}" + (f": {said(one)}" if one.kind != "answered" else ""), flush=True)
        if one.kind == "answered":
            deliver(plain_table(one, catalogue), None, one.chunks)
    return 0


def write_one(found, path, catalogue):
    """Writes the one answered query to a file."""
    answered = [one for one in found if one.kind == "answered"]
    if len(found) == 1 and not answered:
        raise SkyqError(f"query {found[0].number} has no table: {said(found[0])}")
    if len(answered) != 1:
        raise SkyqError(f"{len(answered)} queries are answered, and a file holds one table: choose it with --query K")
    deliver(plain_table(answered[0], catalogue), path, answered[0].chunks)
    return 0


def said(one):
    return f"refused: {one.why}" if one.kind == "refused" else one.why


def plain_table(one, catalogue):
    """The Table of an answer by its headings; with a catalogue its columns have their units and scales."""
    return table_of(outs.named([out_of(heading, place, one, catalogue) for place, heading in enumerate(one.headings)]), one.columns)


def out_of(heading, place, one, catalogue):
    """The Out of a heading: a column, MIN, MAX, SUM or AVG of one, or anything else, whose numbers stay as they are."""
    form = re.fullmatch(r"(?:(MIN|MAX|SUM|AVG)\()?(?:[A-Za-z_]\w*\.)?([A-Za-z_]\w*)\)?", heading)
    column = catalogue.engine_column(form[2]) if catalogue and form else None
    is_average = one.columns[place].is_average
    scale = 1 if column is None or column.kind == "word" else column.scale
    if is_average:
        return outs.Out(heading, outs.average(place, scale), column and column.unit)
    if column is None:
        return outs.Out(heading, outs.whole(place))
    if form[1] == "SUM":
        return outs.Out(heading, outs.scaled(place, scale), column.unit)
    name = heading.replace(form[2], column.source)
    return outs.Out(name, outs.column(place, column), column.unit, column.description)
