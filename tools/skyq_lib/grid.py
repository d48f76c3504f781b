"""Angles and the engine's grid: degrees to positions and back, and how far rounding moves what.

A position is 2^28 times a unit vector, each coordinate rounded to a whole number. The one bound that all of skyq uses
follows here. Rounding moves each coordinate by at most 1/2, so a position by at most sqrt(3)/2 units, and the straight
line (the chord) between two positions by at most sqrt(3) units: 1.331 mas on the sky. Both ends of a comparison of
chords may therefore be off by sqrt(3) units together, which is SLACK, with room for the arithmetic of doubles.
"""
import math
import re
from fractions import Fraction

import numpy as np

from skyq_lib.errors import SkyqError

UNIT = 2**28                                            # the sphere's radius in grid units
SLACK = math.sqrt(3) + 1e-5                             # the most that rounding changes a chord, in grid units
MAS_PER_UNIT = math.degrees(1 / UNIT) * 3600e3          # 0.7684
MAX_MOVE_MAS = math.sqrt(3) / 2 * MAS_PER_UNIT          # the most that rounding moves a position: 0.6655
MAX_OVERLAP = 2**24                                     # the engine's limit, in grid units
Z_LEAST, Z_MOST = -UNIT - 16, UNIT + 16                 # the heights that an admissible position may have
MAX_CHORD2 = 2**62                                      # the largest squared radius of an area_cap

ARCSEC = {"deg": 3600.0, "arcmin": 60.0, "arcsec": 1.0, "mas": 1e-3, "rad": math.degrees(1) * 3600}
ANGLE = re.compile(r"\s*([0-9]+\.?[0-9]*(?:[eE][-+]?[0-9]+)?|\.[0-9]+(?:[eE][-+]?[0-9]+)?)\s*([a-z]*)\s*")


def arcsec_of_text(text):
    """The arcseconds of an angle with its unit, as in 60arcsec, 5arcmin, 1deg, 10mas."""
    found = ANGLE.fullmatch(text)
    if not found:
        raise SkyqError(f"{text} is no angle: write it as 60arcsec, 5arcmin or 1deg")
    if found[2] not in ARCSEC:
        raise SkyqError(f"{text} has no unit of angle: write it as {found[1]}arcsec, {found[1]}arcmin or {found[1]}deg")
    return float(found[1]) * ARCSEC[found[2]]


def text_of_arcsec(arcsec):
    """An angle for people, as in 60 arcsec; at most 6 digits, rounded down, so that it is never more than it is."""
    if arcsec == 0:
        return "0 arcsec"
    digits = max(0, 5 - math.floor(math.log10(abs(arcsec))))
    scale = 10.0**min(digits, 9)
    text = f"{math.floor(arcsec * scale + 1e-6) / scale:.9f}".rstrip("0").rstrip(".")
    return f"{text} arcsec"


def unit_vectors(ra, dec):
    """The unit vectors x, y, z of positions in degrees, as doubles."""
    ra, dec = np.radians(np.asarray(ra, "f8")), np.radians(np.asarray(dec, "f8"))
    round_the_pole = np.cos(dec)
    return round_the_pole * np.cos(ra), round_the_pole * np.sin(ra), np.sin(dec)


def to_grid(ra, dec):
    """The grid positions x, y, z (int64) of right ascensions and declinations in degrees."""
    return tuple(np.rint(UNIT * part).astype("i8") for part in unit_vectors(ra, dec))


def to_degrees(x, y, z):
    """Right ascension, 0 to 360, and declination of grid positions, in degrees; good to MAX_MOVE_MAS."""
    x, y, z = (np.asarray(part, "f8") for part in (x, y, z))
    return np.degrees(np.arctan2(y, x)) % 360.0, np.degrees(np.arctan2(z, np.hypot(x, y)))


def separation(ra, dec, ra2, dec2):
    """The angle between positions in degrees, in arcseconds; good at all angles, the small and those near 180 degrees."""
    a, b = (np.stack(np.broadcast_arrays(*unit_vectors(*p))) for p in ((ra, dec), (ra2, dec2)))
    if a.shape != b.shape:
        a, b = np.broadcast_arrays(a.reshape(3, -1), b.reshape(3, -1))
    apart, together = np.sqrt(((a - b) ** 2).sum(axis=0)), np.sqrt(((a + b) ** 2).sum(axis=0))
    return np.degrees(2 * np.arctan2(apart, together)) * 3600


def chord(arcsec):
    """The straight line, in grid units, between two points of the sphere that are an angle apart."""
    return 2 * UNIT * math.sin(math.radians(min(arcsec, 648000.0) / 3600) / 2)


def chord2(arcsec, slack=0.0):
    """The largest whole squared chord of an angle. With slack SLACK no pair is missed, with -SLACK none is too many."""
    return min(math.floor(Fraction(max(0.0, chord(arcsec) + slack)) ** 2), MAX_CHORD2)


def arcsec_of_chord2(n):
    """The angle of a squared chord, in arcseconds."""
    return math.degrees(2 * math.asin(min(1.0, math.sqrt(n) / (2 * UNIT)))) * 3600


def overlap_for(arcsec):
    """The least overlap, in grid units, that allows a join of chord2(arcsec, SLACK)."""
    n = chord2(arcsec, SLACK)
    root = math.isqrt(n)
    return root + (root * root < n)


def overlap_arcsec(units):
    """The angle in arcseconds up to which a join with SLACK fits an overlap of so many grid units."""
    return math.degrees(2 * math.asin(max(0.0, min(1.0, (units - SLACK) / (2 * UNIT))))) * 3600


def direction(ra):
    """The direction of a right ascension in the plane of x and y, as fine as area_box takes it (parts within 2^29)."""
    angle = math.radians(ra)
    return round(2 * UNIT * math.cos(angle)), round(2 * UNIT * math.sin(angle))


def height(dec):
    """The z of a declination, in grid units, as a double."""
    return UNIT * math.sin(math.radians(dec))
