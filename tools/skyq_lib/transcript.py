"""Reads what the program writes for a script: an `Answer` for each query, its values as whole numbers in numpy arrays."""
import re
from dataclasses import dataclass, field

import numpy as np

from skyq_lib.errors import SkyqError

TAIL = re.compile(rb"(\d+) rows, (\d+) chunks\n")
LEAST, MOST = -(2**63), 2**63 - 1   # of 64 bits
NULL = LEAST                        # stands for NULL while the text is read


@dataclass
class Values:
    """A column of an answer, as it stands in the text.

    `whole` holds int64, or Python's ints as objects where one passes 64 bits; where `null` is true it holds 0.
    An average is kept in ten-thousandths, and `is_average` says so.
    """
    whole: object
    null: object                # a mask of numpy, or None where no value is NULL
    is_average: bool = False


@dataclass
class Answer:
    """One query's block: `kind` is answered, refused, cancelled or spent (out of memory); `why` is the refusal's text."""
    number: int
    kind: str
    why: str = ""
    headings: list = field(default_factory=list)
    columns: list = field(default_factory=list)         # Values, one for each heading
    count: int = 0                                      # rows
    chunks: int = 0


def read(data):
    """The answers of a transcript, bytes; a SkyqError says where it is no transcript or is cut off."""
    found, at = [], 0
    while at < len(data):
        head = b"query %d\n" % (len(found) + 1)
        if not data.startswith(head, at):
            raise SkyqError(f"this is no transcript: 'query {len(found) + 1}' is missing at byte {at}")
        # no heading, row or refusal is 'query N': a row is numbers, and no heading has a blank before a number alone
        end = data.find(b"\nquery %d\n" % (len(found) + 2), at)
        end = len(data) if end < 0 else end + 1
        found.append(answer(len(found) + 1, data[at + len(head) : end]))
        at = end
    return found


def answer(number, body):
    """The Answer of a block without its first line."""
    if body.startswith(b"refused: ") and body.find(b"\n") == len(body) - 1:
        return Answer(number, "refused", body[9:-1].decode("utf-8", "replace"))
    if body == b"cancelled\n":
        return Answer(number, "cancelled", "cancelled")
    if body == b"out of memory\n":
        return Answer(number, "spent", "out of memory")
    last = body.rfind(b"\n", 0, len(body) - 1) + 1
    tail = TAIL.fullmatch(body, last)
    if not tail or last == 0:
        raise SkyqError(f"the answer of query {number} has no last line: the transcript is cut off")
    first, _, rows = body[:last].partition(b"\n")
    headings, count = first.decode("utf-8", "replace").split(","), int(tail[1])
    return Answer(number, "answered", "", headings, columns_of(rows, len(headings), count, number), count, int(tail[2]))


def columns_of(rows, width, count, number):
    """The Values of each column of a text of rows."""
    if count == 0:
        return [Values(np.zeros(0, "i8"), None) for _ in range(width)]
    has_null, averages = b"NULL" in rows, averages_of(rows, width) if b"." in rows else set()
    text = rows.replace(b".", b"") if averages else rows
    whole = numbers(text, has_null, number)
    if len(whole) != width * count or rows.count(b"\n") != count:
        raise SkyqError(f"query {number} tells {count} rows of {width} columns, and has others")
    table = whole.reshape(count, width)
    return [values_of(table[:, place], place in averages) for place in range(width)]


def numbers(text, has_null, number):
    """All numbers of a text of rows in a line, as int64 or, if one may pass 64 bits, as Python's ints."""
    plain = text.replace(b"NULL", b"%d" % NULL) if has_null else text
    if not is_rows(plain):
        raise SkyqError(f"the answer of query {number} has a row that is no row of numbers")
    whole = np.fromstring(plain.replace(b"\n", b","), dtype="i8", sep=",")
    # a number that passes 64 bits is read as the end of their range
    is_long = (whole == MOST).any() or np.count_nonzero(whole == LEAST) != (text.count(b"NULL") if has_null else 0)
    return long_numbers(text) if is_long else whole


def is_rows(text):
    """Whether a text is numbers with a comma or a line's end after each: no other signs, no empty cells, no minus within."""
    if text.translate(None, b"0123456789-,\n") or text[:1] in (b",", b"\n"):
        return False
    if any(pair in text for pair in (b",,", b",\n", b"\n,", b"\n\n", b"--", b"-,", b"-\n")):
        return False
    return text.count(b"-") == text.count(b",-") + text.count(b"\n-") + text.startswith(b"-")


def averages_of(rows, width):
    """The places of the columns of averages: those whose first value, if it is no NULL, has a point."""
    found, left, at = set(), set(range(width)), 0
    while left and at < len(rows):
        end = rows.index(b"\n", at)
        cells = rows[at:end].split(b",")
        known = {place for place in left if cells[place : place + 1] != [b"NULL"]}
        found |= {place for place in known if b"." in b"".join(cells[place : place + 1])}
        left, at = left - known, end + 1
    return found


def long_numbers(text):
    """All numbers of a text, some of which may pass 64 bits, as Python's ints."""
    words = text.replace(b"\n", b",").split(b",")[:-1]
    try:
        return np.array([NULL if word == b"NULL" else int(word) for word in words] + [None], dtype=object)[:-1]
    except ValueError as fault:
        raise SkyqError(f"this is no transcript: {fault}") from None


def values_of(whole, is_average):
    """The Values of one column, as int64 if all fit."""
    null = whole == NULL
    null = np.asarray(null, bool)
    if null.any():
        whole = np.where(null, 0, whole)
    if whole.dtype == object and LEAST < whole.min() and whole.max() <= MOST:
        whole = whole.astype("i8")
    return Values(np.ascontiguousarray(whole), null if null.any() else None, is_average)
