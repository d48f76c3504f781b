"""The positions and ids of a table's rows."""
import numpy as np

from skyq_lib.errors import SkyqError
from skyq_lib.grid import separation, to_degrees
from skyq_lib.scales import LeftOut, is_number
from skyq_lib.tables import is_null


def plain(column):
    """A table's column as a plain numpy array."""
    return np.asarray(np.ma.getdata(np.ma.asarray(column)) if hasattr(column, "mask") else column)


def unit_text(column):
    return str(column.unit or "").strip().lower()


def angle_unit(name, column):
    """How many degrees the unit of a column of angles is; a column without a unit is in degrees."""
    import astropy.units as u

    if unit_text(column) in ("", "deg", "degree", "degrees"):
        return 1.0
    try:
        return (1 * column.unit).to(u.deg).value
    except (u.UnitsError, ValueError, TypeError):       # a unit of something else, or one that astropy does not know
        raise SkyqError(f"column {name} has the unit {column.unit}, which is no angle") from None


def degrees_of(table, name):
    """A column of angles in degrees, NaN where there is none."""
    column = table[name]
    judge_plain(name, column)
    if column.ndim != 1:
        raise SkyqError(f"column {name} holds arrays, not angles")
    if plain(column).dtype.kind not in "USO":
        return np.asarray(np.ma.filled(np.ma.asarray(column, dtype="f8"), np.nan)) * angle_unit(name, column)
    words = [word.decode("utf-8", "replace") if isinstance(word, bytes) else str(word) for word in plain(column)]
    for row, word in enumerate(words, 1):
        if not is_number(word):
            raise SkyqError(f"column {name} has {word!r}, which is no number of degrees", row=row)
    return np.array(words, "f8") * angle_unit(name, column)


def judge_plain(name, column):
    """Refuses what astropy reads as times or coordinates and not as a column of values."""
    if not hasattr(column, "dtype"):
        raise LeftOut(f"column {name} is a {type(column).__name__}, which the engine cannot hold")


def positions(table, ra_name, dec_name):
    """Right ascension within 0 to 360 and declination of each row, in degrees, and the places of the rows that have them."""
    ra, dec = degrees_of(table, ra_name), degrees_of(table, dec_name)
    is_there = np.isfinite(ra) & np.isfinite(dec)
    outside = np.flatnonzero(is_there & (np.abs(np.where(is_there, dec, 0)) > 90))
    if len(outside):
        raise SkyqError(outside_text(table[dec_name], dec, outside[0]), row=int(outside[0]) + 1)
    turned = np.where((ra >= 0) & (ra < 360), ra, np.mod(ra, 360.0, where=is_there, out=np.zeros(len(ra))))
    return np.where(turned >= 360, 0.0, turned), dec, np.flatnonzero(is_there)


def outside_text(column, dec, place):
    """What is wrong with a declination, in its own unit and in degrees."""
    if dec[place] == float(column[place]):
        return f"declination {dec[place]} is outside -90 to 90"
    return f"declination {column[place]} {column.unit}, {dec[place]:.10g} degrees, is outside -90 to 90"


def ids_of(table, name, places):
    """The objectIds of the rows at places: a column of whole numbers, or the rows' own numbers from 1."""
    if name is None:
        return places.astype("i8") + 1
    values = plain(table[name])
    hint = "; --id none numbers the rows"
    if values.dtype.kind not in "iu":
        raise SkyqError(f"column {name} has no whole numbers for ids{hint}")
    missing = np.flatnonzero(is_null(table[name])[places])
    if len(missing):
        raise SkyqError(f"column {name} has no id{hint}", row=int(places[missing[0]]) + 1)
    values = values[places]
    outside = np.flatnonzero((values < 0) | (values > np.uint64(2**63 - 1) if values.dtype == "u8" else values < 0))
    if len(outside):
        raise SkyqError(f"column {name} has the id {values[outside[0]]}, outside 0 to 2^63-1{hint}", row=int(places[outside[0]]) + 1)
    order = np.argsort(values, kind="stable")
    again = order[1:][values[order][1:] == values[order][:-1]]
    if len(again):
        row = int(places[again.min()]) + 1
        raise SkyqError(f"column {name} repeats the id {values[again.min()]}{hint}", row=row)
    return values.astype("i8")


def moved(ra, dec, x, y, z):
    """By how much the grid moves the positions: the largest and the root of the mean square, in mas."""
    if not len(ra):
        return 0.0, 0.0
    by = separation(ra, dec, *to_degrees(x, y, z)) * 1000
    return float(by.max()), float(np.sqrt(np.mean(by**2)))
