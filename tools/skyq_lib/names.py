"""Which columns of a table are the position and the id, and what the engine calls the others."""
import re

from skyq_lib.columns import DEGREES, POSITION
from skyq_lib.errors import SkyqError

RA = "ra raj2000 ra_icrs _ra _raj2000 ra_j2000 coord_ra ramean ra_deg radeg".split()
DEC = "dec decj2000 dej2000 de_icrs dec_icrs _de _dej2000 dec_j2000 coord_dec decmean dec_deg decdeg dedeg".split()
ID = "objectid id source_id object_id".split()
RESERVED = set(
    "SELECT FROM WHERE GROUP BY ORDER ASC DESC LIMIT AS AND OR NOT BETWEEN IN IS NULL COUNT SUM MIN MAX AVG CHORD2 "
    "AREA_BAND AREA_CAP AREA_BOX".split()
)
LONGEST = 32


def by_name_or_ucd(table, names, ucd):
    """The first column with one of the names, whatever its case, or with the UCD; None if there is none."""
    by_name = {name.lower(): name for name in reversed(table.colnames)}
    for name in names:
        if name in by_name:
            return by_name[name]
    for name in table.colnames:
        if str(table[name].info.meta and table[name].info.meta.get("ucd")).lower() == ucd:
            return name
    return None


def position_columns(table, ra, dec):
    """The names of the position's columns: those given, else found by name or UCD."""
    for name in (ra, dec):
        if name is not None and name not in table.colnames:
            raise SkyqError(f"no column {name} among {', '.join(table.colnames)}")
    if ra is not None and ra == dec:
        raise SkyqError(f"column {ra} is named both as right ascension and as declination")
    ra = ra or by_name_or_ucd(table, RA, "pos.eq.ra;meta.main")
    dec = dec or by_name_or_ucd(table, DEC, "pos.eq.dec;meta.main")
    if ra is None or dec is None:
        raise SkyqError(f"no columns of right ascension and declination among {', '.join(table.colnames)}; name them with --ra and --dec")
    return ra, dec


def id_column(table, name, notes):
    """The name of the column of ids, None if the rows are to be numbered."""
    if name == "none":
        return None
    if name is not None:
        if name not in table.colnames:
            raise SkyqError(f"no column {name} among {', '.join(table.colnames)}")
        return name
    found = by_name_or_ucd(table, ID, "meta.id;meta.main")
    if found is not None and getattr(getattr(table[found], "dtype", None), "kind", None) not in ("i", "u"):
        notes.append(f"column {found} has no whole numbers, so the rows are numbered from 1")
        return None
    return found


def engine_name(name, taken):
    """A name that the engine takes and that is not taken: letters, digits and _, at most 32."""
    made = re.sub(r"[^A-Za-z0-9_]", "_", name)
    made = (made if re.match(r"[A-Za-z_]", made) else "c_" + made)[:LONGEST]
    if made.upper() in RESERVED or made in (*POSITION, *DEGREES):
        made = made[: LONGEST - 1] + "_"
    stem, count = made, 2
    while made in taken:
        end = f"_{count}"
        made, count = stem[: LONGEST - len(end)] + end, count + 1
    return made
