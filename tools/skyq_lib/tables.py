"""Tables in files: FITS, VOTable, ECSV and CSV, read and written by astropy, each fault as one line."""
import csv
import os
import re
import sys
import warnings

import numpy as np

from skyq_lib.errors import SkyqError, count_of
from skyq_lib.votable import document

ENDINGS = {
    ".fits": "fits", ".fit": "fits", ".fits.gz": "fits", ".vot": "votable", ".vot.gz": "votable", ".xml": "votable",
    ".ecsv": "ecsv", ".csv": "csv",
}
READERS = {"fits": "fits", "ecsv": "ascii.ecsv"}       # what astropy calls the formats
UTF_8 = "utf-8-sig"                                     # a byte order mark at the head is passed over
NULLS = ("", "NULL", "null")                            # what stands for NULL in a CSV


def format_of(path):
    """The format of a file by its ending; a SkyqError lists the endings if it has another."""
    for ending, name in ENDINGS.items():
        if path.lower().endswith(ending):
            return name
    raise SkyqError(f"the ending is none of {', '.join(ENDINGS)}", path)


def reason(fault):
    """The first line of what astropy says, without its control codes; what Python alone could understand is told as damage."""
    if isinstance(fault, (TypeError, LookupError, AttributeError)):
        return "it is damaged"
    lines = [line.strip() for line in re.sub(r"\x1b\[[0-9;]*m", "", str(fault)).splitlines() if line.strip()]
    return (lines[0] if lines else type(fault).__name__)[:300]


def row_of(text):
    """The row, from 1, that a message of astropy's readers of text names."""
    found = re.search(r"data (?:line|row)\s*:?\s*([0-9]+)", text)
    return int(found[1]) + 1 if found else None


def read_votable(path):
    """The first table of a VOTable, its columns by their names."""
    from astropy.io.votable import parse

    return parse(path, verify="ignore").get_first_table().to_table(use_names_over_ids=True)


def check_fields(path):
    """Refuses a CSV of which a row has another number of fields than the header, which astropy would fill up if it is short,
    or of which two columns have one name."""
    with open(path, encoding=UTF_8, newline="") as file:
        records = (record for record in csv.reader(file) if record)
        header = [name.strip() for name in next(records, [])]
        if header and header[0].startswith("#"):
            raise SkyqError("begins with a comment, and a CSV begins with its header: take the lines with # away", path)
        twice = [name for place, name in enumerate(header) if name and name in header[:place]]
        if twice:
            raise SkyqError(f"the header has {twice[0]} twice", path)
        for row, record in enumerate(records, 1):
            if len(record) != len(header):
                raise SkyqError(f"{count_of(len(record), 'field')}; the header has {len(header)}", path, row)


def has_mark(path):
    """Whether a text begins with a byte order mark."""
    with open(path, "rb") as file:
        return file.read(3) == b"\xef\xbb\xbf"


def read_as(path, name):
    """The table of a file of one of the formats."""
    from astropy.table import Table

    if name == "votable":
        return read_votable(path)
    if name == "csv":
        check_fields(path)
        # astropy reads five times as long if it is given the encoding
        more = {"encoding": UTF_8} if has_mark(path) else {}
        return Table.read(path, format="ascii.csv", fill_values=[(word, "0") for word in NULLS], **more)
    return Table.read(path, format=READERS[name])


def read_table(path):
    """The astropy Table of a file. A SkyqError has the file's name, and the row if the fault is in one."""
    name = format_of(path)
    with open(path, "rb"):      # an OSError here names the file by itself
        pass
    try:
        with warnings.catch_warnings():
            warnings.simplefilter("ignore")
            table = read_as(path, name)
    except (MemoryError, SkyqError):
        raise
    except Exception as fault:      # whatever a reader makes of a faulty file
        raise SkyqError(f"cannot be read as {name}: {reason(fault)}", path, row_of(str(fault))) from None
    if not table.colnames:
        raise SkyqError("has no columns", path)
    return table


def is_null(column):
    """Where a column has no value."""
    return np.ma.getmaskarray(np.ma.asarray(column)) if hasattr(column, "mask") else np.zeros(len(column), bool)


def for_fits(table):
    """A table as a unit of FITS; a SkyqError if a name or a word is no ASCII.

    astropy by itself takes int8 for truths, NULL of a truth for TRUE, and in a table with any NULL each 999999 for one. So int8
    is int16 here, NULL is NaN or the least number of a type that has it to spare, and truths with NULLs are 0, 1 and NULL.
    """
    from astropy.io.fits import table_to_hdu
    from astropy.table import Column, Table

    plain, nulls = Table(meta=table.meta), {}
    for name in table.colnames:
        judge_ascii(name, table[name])
        values = np.ma.asarray(table[name])
        if values.dtype == "i1" or values.dtype.kind in "iub" and np.ma.is_masked(values):
            values, least = with_room(values)
            nulls.update({name: least} if np.ma.is_masked(values) else {})
        blank = nulls.get(name, {"f": np.nan, "U": ""}.get(values.dtype.kind, 0))
        plain[name] = Column(values.filled(blank), unit=table[name].unit, description=table[name].description)
    unit = table_to_hdu(plain)
    for name, least in nulls.items():
        unit.columns[name].null = least
    return unit


def with_room(values):
    """Whole numbers, a masked array, in a signed type whose least number none of them is, and this number, which is for NULL."""
    bits = 8 * values.dtype.itemsize * (1 if values.dtype.kind == "i" else 2)
    for form in ("i2", "i4", "i8"):
        least = int(np.iinfo(form).min)
        if 8 * np.dtype(form).itemsize >= bits and not (values.compressed() == least).any():
            break
    return values.astype(form), least


def judge_ascii(name, column):
    """Refuses for FITS a column whose name or whose words are not of ASCII."""
    words = np.unique(np.ma.asarray(column).compressed()).tolist() if column.dtype.kind == "U" else []
    for word in (name, *words):
        if not word.isascii():
            raise SkyqError(f"FITS holds ASCII alone, and column {name} has {word!r}: VOTable, ECSV and CSV hold it")


def for_csv(table):
    """A copy of a table whose single floats are their shortest texts: as doubles they would have 17 digits."""
    from astropy.table import MaskedColumn

    copy = table.copy()
    for name in copy.colnames:
        if copy[name].dtype == "f4":
            texts = np.ma.filled(np.ma.asarray(copy[name]), 0).astype("U")
            copy.replace_column(name, MaskedColumn(texts, name=name, mask=is_null(copy[name])))
    return copy


def write_as(table, target, name):
    """Writes a table to a file in one of the formats."""
    if name == "votable":
        with open(target, "wb") as file:
            file.write(document(table))     # astropy's own writer takes 25 times as long
    elif name == "fits":
        for_fits(table).writeto(target)
    elif name == "csv":
        for_csv(table).write(target, format="ascii.csv")
    else:
        table.write(target, format="ascii.ecsv")


def write_table(table, path, format=None):
    """Writes an astropy Table beside the path and renames it; path None: CSV to standard output. NULLs stay NULLs."""
    if path is None:
        write_as(table, sys.stdout, "csv")
        return
    name = format or format_of(path)
    beside = f"{path}.new-{os.getpid()}"
    try:
        with warnings.catch_warnings():
            warnings.simplefilter("ignore")
            write_as(table, beside, name)
        os.replace(beside, path)
    except SkyqError as fault:
        raise SkyqError(fault.what, path) from None
    except OSError as fault:        # the name of the file beside says nothing to the user
        raise SkyqError(fault.strerror or str(fault), path) from None
    except (ValueError, TypeError) as fault:
        raise SkyqError(f"cannot be written as {name}: {reason(fault)}", path) from None
    finally:
        if os.path.exists(beside):
            os.unlink(beside)
