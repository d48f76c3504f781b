"""From a table to a catalogue folder: sky.txt, catalogue.csv and columns.json."""
import os
import re
import sys

import numpy as np

from skyq_lib.columns import DEGREES, MOST_COLUMNS, MOST_ROWS, POSITION, Catalogue
from skyq_lib.errors import SkyqError, count_of, need
from skyq_lib.folders import judge_folder, write_folder
from skyq_lib.grid import to_grid
from skyq_lib.names import engine_name, id_column, position_columns
from skyq_lib.plan import asked_overlap, plan_of, summary
from skyq_lib.positions import ids_of, judge_plain, moved, plain, positions
from skyq_lib.progress import working
from skyq_lib.scales import LeftOut, encode
from skyq_lib.tables import is_null, read_table


def degree_columns(ra_name, dec_name, ra, dec, places):
    """The two columns that keep the degrees, at a scale of at most 10^12: good to 5e-13 degree at the least."""
    made = []
    for name, source, values in zip(DEGREES, (ra_name, dec_name), (ra, dec)):
        none = np.zeros(len(values), bool)
        found = encode(name, source, values, none, unit="deg", description=None, places=places)
        if found[0].scale > 10**12:
            found = encode(name, source, values, none, unit="deg", description=None, places=places, scale=10**12)
        made.append(found)
    return made


def healpix_column(ra, dec, nside, places):
    """The column of nested HEALPix pixels."""
    if nside < 1 or nside & (nside - 1) or nside > 2**20:
        raise SkyqError(f"--healpix {nside}: nside is a power of two, at most 2^20")
    module = need("astropy_healpix", "--healpix")
    import astropy.units as u

    pixels = module.HEALPix(nside, order="nested").lonlat_to_healpix(ra * u.deg, dec * u.deg)
    what = f"HEALPix pixel, nside {nside}, nested"
    return encode("healpix", "healpix", np.asarray(pixels, "i8"), np.zeros(len(ra), bool), unit=None, description=what, places=places)


def chosen_names(table, position, id_name, columns, scales, drop):
    """The table's columns that are to be taken; a SkyqError for a name that it has not, or that is the position or the id."""
    for name in [*(columns or []), *scales, *drop]:
        if name not in table.colnames:
            raise SkyqError(f"no column {name} among {', '.join(table.colnames)}")
        if name in position:
            raise SkyqError(f"column {name} is of the position, which is always taken; --degrees keeps its degrees too")
        if name == id_name:
            raise SkyqError(f"column {name} is the objectId, which is always taken; --id none numbers the rows")
    return [
        name for name in table.colnames
        if name not in (*position, id_name, *drop) and (columns is None or name in columns)
    ]


def further_column(name, column, places, taken, scale, notes):
    """Encodes one of the table's columns beside the position."""
    judge_plain(name, column)
    values, mask = plain(column)[places], is_null(column)[places]
    if scale is not None and values.dtype.kind != "f":
        raise SkyqError(f"column {name} holds no floats, so it takes no scale")
    unit, description = str(column.unit) if column.unit else None, column.description or None
    return encode(engine_name(name, taken), name, values, mask, unit=unit, description=description, places=places, scale=scale, notes=notes)


def further_columns(table, names, places, taken, columns, scales, notes):
    """Encodes the table's columns beside the position; one that the engine cannot hold is left out unless it was asked for."""
    made = []
    for name in names:
        try:
            made.append(further_column(name, table[name], places, taken, scales.get(name), notes))
        except LeftOut as why:
            if columns is not None:
                raise SkyqError(why) from None
            notes.append(f"{why}: it is left out")
            continue
        taken.add(made[-1][0].name)
    return made


def ingest(table, folder, *, source="table", overlap_arcsec=60.0, id=None, ra=None, dec=None, columns=None, scales=None,
           drop=(), degrees=False, healpix=None, notes=None):
    """Writes an astropy Table as a catalogue folder and returns its Catalogue and its SkyPlan.

    id: a column's name, "none" to number the rows, None to choose. columns: the names of those to take, None for all.
    scales: {name: whole number}. notes: a list that gets a line for each thing that the user should know.
    """
    notes, scales = [] if notes is None else notes, scales or {}
    judge_folder(folder)
    ra_name, dec_name = position_columns(table, ra, dec)
    id_name = id_column(table, id, notes)
    names = chosen_names(table, (ra_name, dec_name), id_name, columns, scales, drop)
    right, declination, places = positions(table, ra_name, dec_name)
    right, declination, ids = right[places], declination[places], ids_of(table, id_name, places)
    if len(ids) > MOST_ROWS:
        raise SkyqError(f"{len(ids)} rows; the engine takes {MOST_ROWS}")
    made = degree_columns(ra_name, dec_name, right, declination, places) if degrees else []
    if healpix is not None and "healpix" in [name.lower() for name in names]:
        raise SkyqError("--healpix adds a column healpix, and the table has one: leave it out with --drop, or do without --healpix")
    made += [healpix_column(right, declination, healpix, places)] if healpix is not None else []
    made += further_columns(table, names, places, {*POSITION, *(c.name for c, _, _ in made)}, columns, scales, notes)
    if len(made) > MOST_COLUMNS:
        raise SkyqError(f"{len(made)} columns beside the position, {', '.join(c.source for c, _, _ in made)}; the engine takes "
                        f"{MOST_COLUMNS}: choose them with --column or leave some out with --drop")
    grid = to_grid(right, declination)
    largest, mean = moved(right, declination, *grid)
    catalogue = Catalogue(
        source, len(ids), id_name, ra_name, dec_name, overlap_arcsec, [column for column, _, _ in made],
        largest, mean, len(table) - len(ids), folder,
    )
    plan = plan_of(right, declination, overlap_arcsec)
    none = np.zeros(len(ids), bool)
    arrays = [(whole, none) for whole in (ids, *grid)] + [(whole, mask) for _, whole, mask in made]
    write_folder(folder, catalogue, plan, [*POSITION, *(column.name for column, _, _ in made)], arrays)
    return catalogue, plan


def add_words(parser, command):
    add = parser.add_argument
    add("table", metavar="TABLE", help="FITS, VOTable, ECSV or CSV, by its ending")
    add("folder", metavar="FOLDER", help="the catalogue folder that is made, or made anew")
    add("--overlap", default="60arcsec", metavar="ANGLE", help="joins of pairs reach this far, 60arcsec")
    add("--ra", metavar="COLUMN", help="the column of right ascension")
    add("--dec", metavar="COLUMN", help="the column of declination")
    add("--id", metavar="COLUMN|none", help="the column of ids; none numbers the rows from 1")
    add("--column", action="append", metavar="NAME[:SCALE]", help="take this column, and no others but those so named")
    add("--scale", action="append", default=[], metavar="NAME:SCALE", help="hold a float column as its values times SCALE")
    add("--drop", action="append", default=[], metavar="NAME", help="leave this column out")
    add("--degrees", action="store_true", help="keep the degrees too, in two columns of the twelve")
    add("--healpix", type=int, metavar="NSIDE", help="add a column of nested HEALPix pixels")


def with_scale(text, needs_scale):
    """The name and the scale, or None, of NAME:SCALE; the scale is a power of ten, as 1000 or 1e3."""
    name, colon, scale = text.rpartition(":") if re.search(r":[0-9.eE+]+$", text) else (text, "", "")
    if not colon and needs_scale:
        raise SkyqError(f"--scale {text}: give NAME:SCALE, as in mag:1000")
    if not colon:
        return name, None
    if not re.fullmatch(r"10*|1e\+?[0-9]+", scale) or float(scale) > 1e40:
        raise SkyqError(f"{text}: a scale is a power of ten from 1 to 1e40")
    return name, 10 ** (int(scale.partition("e")[2]) if "e" in scale else len(scale) - 1)


def run(words):
    """Reads the table, writes the folder, and prints what became of each column."""
    chosen = None if words.column is None else [with_scale(text, False) for text in words.column]
    scales = {name: scale for name, scale in [*(chosen or []), *(with_scale(text, True) for text in words.scale)] if scale}
    notes, overlap = [], asked_overlap(words.overlap)
    with working(f"reading {words.table}"):
        table = read_table(words.table)
    try:
        catalogue, plan = ingest(
            table, words.folder, source=os.path.basename(words.table), overlap_arcsec=overlap, id=words.id,
            ra=words.ra, dec=words.dec, columns=None if chosen is None else [name for name, _ in chosen], scales=scales,
            drop=words.drop, degrees=words.degrees, healpix=words.healpix, notes=notes,
        )
    except SkyqError as fault:
        raise fault if fault.file else SkyqError(fault.what, words.table, fault.row) from None
    for note in notes:
        print(f"skyq ingest: {words.table}: {note}", file=sys.stderr)
    print("\n".join(report(catalogue, plan)))


def report(catalogue, plan):
    """The lines that say what an ingest made."""
    yield f"{catalogue.folder}: {count_of(catalogue.rows, 'row')}, {count_of(len(catalogue.columns), 'column')}, {summary(plan, catalogue)}"
    if catalogue.dropped:
        yield f"{count_of(catalogue.dropped, 'row')} without a position {'is' if catalogue.dropped == 1 else 'are'} left out"
    yield f"objectId: {catalogue.id or 'the number of the row in the table, from 1'}"
    yield f"position: {catalogue.ra}, {catalogue.dec}, moved by at most {catalogue.largest_move_mas:.3f} mas"
    for column in catalogue.columns:
        parts = [column.kind, column.unit, f"scale {column.scale}" if column.kind == "float" else None]
        parts.append(None if column.kind != "float" else "exact" if column.exact else f"largest error {column.largest_error:.3g}")
        parts.append(count_of(len(column.words), "word") if column.words is not None else None)
        parts.append(f"{column.nulls} NULL" if column.nulls else None)
        alias = "" if column.name == column.source else f" ({column.name} in the engine)"
        yield f"{column.source}{alias}: {', '.join(part for part in parts if part)}"
