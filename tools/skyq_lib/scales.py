"""From a table's column to whole numbers: the scale of floats, the numbers of words, and what is refused.

A float column gets the least power of ten at which every value comes back equal. If there is none, it gets the
largest power that keeps the values within 2^50, and its Column says the largest error. A column of which some value
would keep fewer than three digits, as 1e-30 beside 1.0, is refused unless the user gives its scale.
"""
import math

import numpy as np

from skyq_lib.columns import MOST, MOST_WORDS, Column
from skyq_lib.errors import SkyqError, count_of

MOST_DIGITS = 40            # the largest power of ten that is tried
LEAST_ACCURACY = 1e-3       # the largest relative error that is taken without being asked for
KEPT_AS = {"float16": "float32", "float128": "float64"}     # the types of floats that no file but ECSV has


class LeftOut(SkyqError):
    """A column that the engine cannot hold and that nobody asked for; the message says why."""


def at(places, index):
    """The row of the table, from 1, of a place in the arrays."""
    return int(places[index]) + 1


def is_back(values, scale):
    """Whether each value comes back equal from its whole number."""
    whole = np.rint(values.astype("f8") * scale)
    return np.array_equal((whole / scale).astype(values.dtype), values)


def scale_of(values):
    """The scale of finite values, and whether each value comes back; a scale of 0 if the largest passes 2^50 even at 1."""
    top = float(np.max(np.abs(values), initial=0))
    if top > MOST:
        return 0, False
    room = MOST_DIGITS if top == 0 else min(MOST_DIGITS, math.floor(math.log10(MOST / top)))
    sample = values[:: max(1, len(values) // 1000)]
    for power in range(room + 1):
        if is_back(sample, 10.0**power) and is_back(values, 10.0**power):
            return 10**power, True
    return 10**room, False


def whole_of_floats(column, values, mask, places, scale):
    """Fills in a float column's scale and errors; returns its whole numbers."""
    shown = column.source
    finite = np.asarray(values[~mask])
    if scale is None:
        column.scale, column.exact = scale_of(finite)
    else:
        column.scale, column.exact = scale, is_back(finite, float(scale))
    top = int(np.argmax(np.where(mask, 0, np.abs(values.astype("f8"))))) if len(finite) else 0
    if column.scale == 0 or len(finite) and abs(float(values[top])) * column.scale > MOST:
        hint = "give it in another unit" if (scale or 1) == 1 else "give it a smaller scale"
        raise SkyqError(
            f"column {shown}: {values[top]} times {max(column.scale, 1)} passes 2^50; {hint}, or leave it out with --drop {shown}",
            row=at(places, top),
        )
    whole = np.zeros(len(values))
    np.rint(values.astype("f8") * float(column.scale), where=~mask, out=whole)
    if not column.exact:
        judge_errors(column, values, mask, whole, places, scale)
    return whole.astype("i8")


def judge_errors(column, values, mask, whole, places, scale):
    """Fills in the largest error; refuses a value that keeps too few digits if the user has not given the scale."""
    wide = values.astype("f8")
    errors = np.where(mask, 0, np.abs(whole / float(column.scale) - wide))
    column.largest_error = float(errors.max(initial=0))
    with np.errstate(divide="ignore", invalid="ignore"):
        relative = np.where(mask | (wide == 0), 0, errors / np.abs(wide))
    worst = int(np.argmax(relative)) if len(relative) else 0
    if scale is None and len(relative) and relative[worst] > LEAST_ACCURACY:
        back = whole[worst] / float(column.scale)
        raise SkyqError(
            f"column {column.source}: {values[worst]} beside {np.abs(wide[~mask]).max():g} comes back as {back:g} "
            f"at the largest scale that fits, {column.scale}; accept that with --scale {column.source}:{column.scale}, "
            f"or leave the column out with --drop {column.source}",
            row=at(places, worst),
        )


def whole_of_ints(column, values, mask, places):
    """The whole numbers of a column of whole numbers."""
    beyond = np.flatnonzero(~mask & ((values > MOST) | (values < -MOST))) if values.dtype.itemsize > 4 else []
    if len(beyond):
        raise SkyqError(
            f"column {column.source}: {values[beyond[0]]} is beyond 2^50; leave it out with --drop {column.source}",
            row=at(places, beyond[0]),
        )
    return np.where(mask, 0, values).astype("i8")


def is_number(word):
    """Whether a word reads as a number."""
    try:
        float(word)
        return True
    except ValueError:
        return False


def text_of_object(word):
    """A word that a reader made an object: bytes, a string, or None where there is none."""
    return word.decode("utf-8", "replace") if isinstance(word, bytes) else "" if word is None else str(word)


def text_of(values):
    """A column of bytes, strings or objects as unique strings without blanks at their ends, which FITS does not keep, and each
    row's number."""
    if values.dtype.kind == "O":
        values = np.array([text_of_object(word) for word in values], "U")
    unique, number = np.unique(values, return_inverse=True)
    if unique.dtype.kind == "S":
        unique = np.array([word.decode("utf-8", "replace") for word in unique], "U")
    stripped, again = np.unique(np.char.rstrip(unique), return_inverse=True)
    return stripped, again[number]


def whole_of_words(column, values, mask, places, notes):
    """Numbers the words of a column, in the order of their characters; an empty word is NULL."""
    words, number = text_of(np.where(mask, values.dtype.type(), values) if values.dtype.kind in "US" else values)
    mask |= words[number] == "" if len(number) else False
    used = np.unique(number[~mask])
    if len(used) > MOST_WORDS:
        raise LeftOut(f"column {column.source} has {len(used)} different words, more than {MOST_WORDS}")
    column.words = [str(word) for word in words[used]]
    whole = np.zeros(len(number), "i8")
    whole[~mask] = np.searchsorted(used, number[~mask])
    odd = [k for k, word in enumerate(column.words) if not is_number(word)]
    if odd and 2 * len(odd) < len(column.words):
        first = int(np.flatnonzero(~mask & (whole == odd[0]))[0])
        notes.append(f"column {column.source} is taken as words: row {at(places, first)} has {column.words[odd[0]]!r} among numbers")
    return whole


def encode(name, source, values, mask, *, unit, description, places, scale=None, notes=None):
    """The Column of a table's column, its whole numbers and the mask of its NULLs.

    places: each value's row in the table, from 0, for messages. scale: what the user gave, or None. Raises LeftOut for
    a column that does not fit and may be left out, SkyqError for one that the user has to decide on.
    """
    notes = [] if notes is None else notes
    column = Column(name, source, "int", unit=unit, description=description)
    mask = np.array(mask, bool)
    kind = values.dtype.kind
    is_ragged = kind == "O" and any(isinstance(value, (np.ndarray, list, tuple)) for value in values)
    if values.ndim > 1 or is_ragged:
        raise LeftOut(f"column {source} holds arrays")
    if kind in "USO":
        column.kind, column.type = "word", "str"
        whole = whole_of_words(column, values, mask, places, notes)
    elif kind in "fiub":
        column.kind = {"f": "float", "b": "bool"}.get(kind, "int")
        column.type = values.dtype.newbyteorder("=").name
        if kind == "f":
            column.type = KEPT_AS.get(column.type, column.type)
            if values.dtype.itemsize > 8:
                notes.append(f"column {source} is kept as float64, not as {values.dtype}")
            values = values.astype(column.type)
            is_infinite = ~mask & np.isinf(values)
            column.infinite = int(is_infinite.sum())
            mask |= ~np.isfinite(values)
            if column.infinite:
                row = at(places, np.flatnonzero(is_infinite)[0])
                become = "becomes" if column.infinite == 1 else "become"
                notes.append(f"column {source}: {count_of(column.infinite, 'infinite value')} {become} NULL, the first in row {row}")
            whole = whole_of_floats(column, values, mask, places, scale)
        else:
            whole = whole_of_ints(column, values, mask, places)
    else:
        raise LeftOut(f"column {source} has the type {values.dtype}, which the engine cannot hold")
    column.nulls = int(mask.sum())
    return column, whole, mask
