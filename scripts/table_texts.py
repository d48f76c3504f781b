"""What the text of a table is, a catalogue or a source table: its names and rows, or the line of its first fault.

Written from the rules in docs/FORMATS.md alone: the text is read a byte at a time, as csv is, and its rows are validated one by one.
"""
import collections

IDS, COORDINATE, EXTRA = (1 << 63) - 1, 268435472, 1 << 50
EDGE = 1 << 28
MOST_ROWS, MOST_EXTRA = 1 << 22, 12

# the word of its faults, the names and the ranges of the columns that each such table has, and whether three of them are a position
Format = collections.namedtuple("Format", "word first ranges has_position")
CATALOGUE = Format("catalogue", [b"objectId", b"x", b"y", b"z"], [(0, IDS), *[(-COORDINATE, COORDINATE)] * 3], True)
SOURCES = Format("sources", [b"sourceId", b"objectId"], [(0, IDS)] * 2, False)


def records(text):
    """The records of a text, each a list of fields: the rules of csv, a byte at a time."""
    if text.startswith(b"\xef\xbb\xbf"):
        text = text[3:]
    fields, field, state = [], bytearray(), "start"
    for byte in text:
        if state == "start" and byte in b"\r\n":
            continue
        if state == "quoted":
            if byte == 34:
                state = "closed"
            else:
                field.append(byte)
        elif state == "closed" and byte == 34:
            field.append(byte)
            state = "quoted"
        elif byte == 44:
            fields.append(bytes(field))
            field, state = bytearray(), "field"
        elif byte in b"\r\n":
            yield [*fields, bytes(field)]
            fields, field, state = [], bytearray(), "start"
        elif byte == 34 and state in ("start", "field"):
            state = "quoted"
        else:
            field.append(byte)
            state = "inside"
    if state != "start":
        yield [*fields, bytes(field)]


def number(field):
    """The number of a field, or None."""
    digits = field[1:] if field.startswith(b"-") else field
    if not 1 <= len(digits) <= 19 or not all(48 <= byte <= 57 for byte in digits):
        return None
    return -int(digits) if field.startswith(b"-") else int(digits)


def is_name(name):
    letters = b"abcdefghijklmnopqrstuvwxyzABCDEFGHIJKLMNOPQRSTUVWXYZ_"
    return 1 <= len(name) <= 32 and name[0] in letters and all(byte in letters + b"0123456789" for byte in name)


def header_fault(header, first):
    """The number of the first field of a header that is wrong, or None; the first names are these."""
    for col in range(max(len(first), len(header))):
        if col < len(first):
            right = col < len(header) and header[col] == first[col]
        else:
            right = col < len(first) + MOST_EXTRA and is_name(header[col]) and header[col] not in header[:col]
        if not right:
            return col + 1
    return None


def row_fault(record, width, form):
    """What is wrong with a record, whatever the ids of others are, or None."""
    if len(record) != width:
        return f"{len(record)} fields"
    for col, field in enumerate(record):
        if col >= len(form.first) and field == b"":
            continue
        value = number(field)
        if value is None:
            return f"field {col + 1} is not a number"
        least, most = form.ranges[col] if col < len(form.first) else (-EXTRA, EXTRA)
        if not least <= value <= most:
            return f"field {col + 1} out of range: {value}"
    if form.has_position:
        x, y, z = (number(field) for field in record[1:4])
        return None if (EDGE - 16) ** 2 <= x * x + y * y + z * z <= (EDGE + 16) ** 2 else "length"
    return None


def read(text, form=CATALOGUE):
    """The names and the rows of a table in ascending id, or the line of its first fault."""
    found = list(records(text))
    wrong = header_fault(found[0] if found else [], form.first)
    if wrong:
        return f"{form.word} header: field {wrong}"
    ids, rows = set(), []
    for place, record in enumerate(found[1:], 1):
        if place > MOST_ROWS:
            return f"{form.word}: too many rows"
        fault = row_fault(record, len(found[0]), form)
        if not fault and number(record[0]) in ids:
            fault = f"repeated id {number(record[0])}"
        if fault:
            return f"{form.word} row {place}: {fault}"
        ids.add(number(record[0]))
        rows.append([None if field == b"" else number(field) for field in record])
    return [name.decode() for name in found[0]], sorted(rows)
