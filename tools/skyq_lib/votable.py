"""VOTables as a TAP service gives them: an answer in BINARY2 or TABLEDATA, and a fault with its reason.

astropy's writer takes some 20 ms a table and writes no INFO after a TABLE, where a service says that rows are left out; this
one takes some 0.3 ms. NULL is a row's flag in BINARY2, for each type, and an empty cell in TABLEDATA.
"""
import base64
import dataclasses
import io
import struct
import warnings

import numpy as np

from skyq_lib.markup import HEAD, attributes, element, text

MIME = "application/x-votable+xml"
ROOT = '<VOTABLE version="1.4" xmlns="http://www.ivoa.net/xml/VOTable/v1.3">'
# For each type of numpy: VOTable's name, and how BINARY2 has it.
TYPES = {
    "b1": ("boolean", "S1"), "u1": ("unsignedByte", ">u1"), "i1": ("short", ">i2"), "i2": ("short", ">i2"), "u2": ("int", ">i4"),
    "i4": ("int", ">i4"), "u4": ("long", ">i8"), "i8": ("long", ">i8"), "u8": ("long", ">i8"), "f4": ("float", ">f4"), "f8": ("double", ">f8"),
}


@dataclasses.dataclass
class Field:
    """A column's place in a VOTable."""
    name: str
    datatype: str
    arraysize: str | None = None
    unit: str | None = None
    ucd: str | None = None
    description: str | None = None

    def text(self):
        head = attributes(name=self.name, datatype=self.datatype, arraysize=self.arraysize, unit=self.unit, ucd=self.ucd)
        return f"<FIELD{head}>{element('DESCRIPTION', self.description)}</FIELD>" if self.description else f"<FIELD{head}/>"


def type_of(dtype, words=()):
    """VOTable's datatype and arraysize of a type of numpy; words are those that a column of text may hold."""
    dtype = np.dtype(dtype)
    if dtype.kind in "US":
        return ("char" if all(word.isascii() for word in words) else "unicodeChar"), "*"
    return TYPES[dtype.kind + str(dtype.itemsize)][0], None


def unit_text(unit):
    """A unit as VOUnit spells it, or as it is where VOUnit has it not."""
    if not unit:
        return None
    from astropy import units

    try:
        with warnings.catch_warnings():
            warnings.simplefilter("ignore")
            return units.Unit(unit).to_string("vounit")
    except ValueError:
        return str(unit)


def fields_of(table, ucds):
    """The Fields of an astropy Table; ucds are UCDs by column."""
    found = []
    for name in table.colnames:
        column = table[name]
        datatype, arraysize = type_of(column.dtype, np.ma.asarray(column).filled("") if column.dtype.kind in "US" else ())
        found.append(Field(name, datatype, arraysize, unit_text(column.unit), ucds.get(name), column.description))
    return found


def document(table, is_cut=False, query=None, ucds=None, is_binary=True):
    """The VOTable, bytes, of an astropy Table; is_cut says that rows are left out."""
    fields = fields_of(table, ucds or {})
    out = io.BytesIO()
    out.write(f'{HEAD}{ROOT}\n<RESOURCE type="results">\n<INFO name="QUERY_STATUS" value="OK"/>\n'.encode())
    if query is not None:
        out.write(f'<INFO name="QUERY" value="{text(query)}"/>\n'.encode())
    out.write(f"<TABLE{attributes(name='result', nrows=len(table))}>\n".encode())
    out.write("".join(f"{field.text()}\n" for field in fields).encode())
    if fields:
        out.write(data_of(table, fields, is_binary))
    out.write(b"</TABLE>\n" + (b'<INFO name="QUERY_STATUS" value="OVERFLOW"/>\n' if is_cut else b"") + b"</RESOURCE>\n</VOTABLE>\n")
    return out.getvalue()


def data_of(table, fields, is_binary):
    columns = [np.ma.asarray(table[field.name]) for field in fields]
    if is_binary:
        return b'<DATA><BINARY2><STREAM encoding="base64">\n' + base64.b64encode(binary2(columns, fields)) + b"\n</STREAM></BINARY2></DATA>\n"
    return f"<DATA><TABLEDATA>\n{tabledata(columns)}</TABLEDATA></DATA>\n".encode()


# ---- BINARY2


def binary2(columns, fields):
    """The rows of masked arrays in BINARY2: for each row a bit a column that says NULL, and then the values."""
    count = len(columns[0])
    nulls = np.stack([np.ma.getmaskarray(column) for column in columns], axis=1)
    parts, run = [], [("flags", "u1", np.packbits(nulls, axis=1))]
    for place, (column, field) in enumerate(zip(columns, fields)):
        if field.arraysize is None:
            run.append((str(place), *plain(column)))
        else:       # a text has its own length, which parts the columns of equal rows
            parts += [packed(run, count), texts(column, field.datatype)]
            run = []
    if run:
        parts.append(packed(run, count))
    if len(parts) == 1:
        return parts[0].tobytes()
    cells = [part if isinstance(part, list) else cut(part) for part in parts if part is not None]
    return b"".join(b"".join(row) for row in zip(*cells))


def plain(column):
    """A column of numbers or truths as a type and values of BINARY2."""
    if column.dtype.kind == "b":
        return "S1", np.where(column.filled(False), b"T", b"F")
    form = TYPES[column.dtype.kind + str(column.dtype.itemsize)][1]
    return form, column.filled(np.nan if column.dtype.kind == "f" else 0).astype(form)


def packed(run, count):
    """Columns of equal rows, as one array of rows; None where there is none."""
    if not run:
        return None
    rows = np.zeros(count, [(name, form, values.shape[1:]) for name, form, values in run])
    for name, _, values in run:
        rows[name] = values
    return rows


def cut(rows):
    """The bytes of each row."""
    size, data = rows.dtype.itemsize, rows.tobytes()
    return [data[at : at + size] for at in range(0, len(data), size)]


def texts(column, datatype):
    """The bytes of each text: its length, and its characters."""
    form, width = ("ascii", 1) if datatype == "char" else ("utf-16-be", 2)
    found = [word.encode(form, "replace") for word in column.filled("").tolist()]
    return [struct.pack(">i", len(data) // width) + data for data in found]


# ---- TABLEDATA


def tabledata(columns):
    """The rows of masked arrays as elements, floats in the shortest digits that read back equal."""
    cells = [[cell_text(value) for value in column] for column in columns]
    return "".join("<TR>" + "".join(f"<TD>{cell}</TD>" for cell in row) + "</TR>\n" for row in zip(*cells))


def cell_text(value):
    if value is np.ma.masked:
        return ""
    if isinstance(value, (bool, np.bool_)):
        return "true" if value else "false"
    return text(value) if isinstance(value, str) else "NaN" if value != value else str(value)


# ---- faults


def fault_document(why):
    """The VOTable, bytes, that says why there is no answer."""
    return (f'{HEAD}{ROOT}\n<RESOURCE type="results">\n<INFO name="QUERY_STATUS" value="ERROR">{text(why)}</INFO>\n'
            "</RESOURCE>\n</VOTABLE>\n").encode()
