"""Decides on the degrees what the grid leaves open: which rows of a superset meet areas and distances, and who is nearer."""
import numpy as np

from skyq_lib.columns import DEGREES


class Rows:
    """The rows of an answer, for conditions: whole numbers, NULLs and degrees by the engine's names of columns."""

    def __init__(self, translation, answer, catalogue):
        self.columns = {name: answer.columns[place] for name, place in translation.places.items()}
        self.count = answer.count
        self.catalogue = catalogue

    def numbers(self, name):
        """A column as Python's ints, which no sum or product overflows."""
        return self.columns[name].whole.astype(object)

    def known(self, names):
        """Where no column of these is NULL."""
        found = np.ones(self.count, bool)
        for name in names:
            if self.columns[name].null is not None:
                found &= ~self.columns[name].null
        return found

    def mask(self, found):
        """What a comparison gave, as a mask, also where it was of numbers alone."""
        return np.broadcast_to(np.asarray(found, bool), self.count)

    def degrees(self, prefix):
        """The right ascensions and declinations of a table."""
        scales = [self.catalogue.engine_column(name).scale for name in DEGREES]
        return tuple(self.columns[prefix + name].whole / float(scale) for name, scale in zip(DEGREES, scales))


def keep(translation, answer, catalogue):
    """The rows of an answer, as a mask of numpy, that meet the translation's tests on the kept degrees."""
    rows = Rows(translation, answer, catalogue)
    found = np.ones(answer.count, bool)
    for test in translation.tests:
        found &= test.truth(rows)
    return found


def kept(translation, answer, catalogue):
    """The places of the rows of an answer that `keep` keeps; where a distance orders them, in its order."""
    places = np.flatnonzero(keep(translation, answer, catalogue))
    if translation.by is None:
        return places
    apart = np.ma.getdata(translation.by.read(answer.columns))[places]
    return places[np.argsort(-apart if translation.is_down else apart, kind="stable")]
