"""The columns of a table from the whole numbers of an answer: each `Out` knows which of the engine's columns it needs."""
import dataclasses
from fractions import Fraction

import numpy as np

from skyq_lib import grid

AVERAGE = 10000                     # the engine writes averages with four decimals
DIGITS = 7                          # decimals of a position that comes from the grid, which is good to 2e-7 degrees
DISTANCE_DIGITS = 8                 # decimals of degrees of a distance, good to 4e-7 degrees


@dataclasses.dataclass
class Out:
    """A column of the table: its name, unit and description, and `read`, which makes its values of the answer's columns.

    `read` takes a list of transcript.Values and gives a numpy masked array. `key` is the place of the engine's column that
    orders as this one does, or None.
    """
    name: str
    read: object
    unit: str | None = None
    description: str | None = None
    key: int | None = None
    table: str | None = None        # the user's name of its table, in a join
    is_distance: bool = False


def masked(values, null):
    return np.ma.MaskedArray(values, mask=False if null is None else null)


def doubles(values, scale):
    """Whole numbers divided by a scale, a Fraction, in doubles."""
    whole, scale = values.whole, Fraction(scale)
    if scale.denominator != 1:
        whole = whole.astype(object) * scale.denominator
    return masked((whole / scale.numerator).astype("f8"), values.null)


def column(place, of):
    """A catalogue's column as it was ingested."""
    return lambda answer: np.ma.masked_array(of.values(answer[place].whole, answer[place].null))


def whole(place):
    """Whole numbers; as doubles where one passes 64 bits."""

    def read(answer):
        values = answer[place]
        return doubles(values, 1) if values.whole.dtype == object else masked(values.whole, values.null)

    return read


def scaled(place, scale):
    return lambda answer: doubles(answer[place], scale)


def average(place, scale):
    return lambda answer: doubles(answer[place], scale * AVERAGE)


def degrees(places, which):
    """Right ascension (which is 0) or declination (1) of x, y and z."""
    return lambda answer: masked(np.round(grid.to_degrees(*(answer[place].whole for place in places))[which], DIGITS), None)


def distance(place):
    """Degrees of a squared chord; NULL where there is none, as the least of no rows is."""

    def read(answer):
        values = answer[place]
        chord = np.sqrt(values.whole.astype("f8")) / (2 * grid.UNIT)
        return masked(np.round(np.degrees(2 * np.arcsin(np.minimum(1.0, chord))), DISTANCE_DIGITS), values.null)

    return read


def separation(here, there):
    """Degrees between places whose degrees were kept: each two numbers, or two columns by place and scale."""

    def read(answer):
        sides = [[doubles(answer[one[0]], one[1]).data if isinstance(one, tuple) else one for one in side] for side in (here, there)]
        return masked(grid.separation(*sides[0], *sides[1]) / 3600, None)

    return read


def named(outs):
    """The outs with names that differ: a column of a join that shares its name gets its table's before it."""
    names = [out.name.lower() for out in outs]
    taken, found = set(), []
    for out in outs:
        name = f"{out.table}_{out.name}" if out.table and names.count(out.name.lower()) > 1 else out.name
        base, k = name, 2
        while name.lower() in taken:
            name, k = f"{base}_{k}", k + 1
        taken.add(name.lower())
        found.append(dataclasses.replace(out, name=name))
    return found
