#!/usr/bin/env python3
"""The stars of Debian's package astrometry-data-tycho2-07-littleendian as a FITS table: a real catalogue to try skyq on.

    apt-get download astrometry-data-tycho2-07-littleendian
    dpkg-deb -x astrometry-data-tycho2-07-littleendian_*.deb FOLDER
    tools/tycho2.py FOLDER/usr/share/astrometry/index-tycho2-07.littleendian.fits OUT.fits

The package is an index for finding stars on images, made from Tycho-2 (BSD-2-Clause). It has 1,871,011 of the catalogue's
2.5 million stars, chosen evenly over the sky, as unit vectors to some 0.0001 arcsec, and their VT magnitudes. OUT.fits
gets the columns id (the star's number in the index, from 1), ra and dec in degrees to 9 decimals, vtmag, and sweep (in
which round of choosing the star was taken). It is written beside and renamed. Needs numpy and astropy.
"""
import argparse
import os

import numpy as np
from astropy import units as u
from astropy.io import fits
from astropy.table import Column, Table


def raw(tables, name, form):
    """The bytes of the one table that has this column, as numbers."""
    return np.frombuffer(np.ascontiguousarray(tables[name].data).tobytes(), form)


def vectors(tables):
    """The unit vectors of the stars: whole numbers within a range, as the index's tree of stars holds them."""
    low, scale = (raw(tables, "kdtree_range_stars", "<f8")[part] for part in (slice(0, 3), 6))
    found = low + raw(tables, "kdtree_data_stars", "<u4").reshape(-1, 3) / scale
    return found / np.linalg.norm(found, axis=1)[:, None]


def stars(path):
    """The table of the stars of an index file."""
    with fits.open(path) as units:
        tables = {unit.columns[0].name: unit for unit in units[1:]}
        x, y, z = vectors(tables).T
        table = Table()
        table["id"] = np.arange(1, len(x) + 1, dtype="i8")
        table["ra"] = Column(np.round(np.degrees(np.arctan2(y, x)) % 360, 9), unit=u.deg, description="right ascension, ICRS")
        table["dec"] = Column(np.round(np.degrees(np.arctan2(z, np.hypot(x, y))), 9), unit=u.deg, description="declination, ICRS")
        table["vtmag"] = Column(np.asarray(tables["MAG_VT"].data["MAG_VT"], "f4"), unit=u.mag, description="Tycho-2 VT magnitude")
        table["sweep"] = Column(raw(tables, "sweep", "u1").astype("i2"), description="round of choosing")
    return table


def main():
    parser = argparse.ArgumentParser(description=__doc__, formatter_class=argparse.RawDescriptionHelpFormatter)
    parser.add_argument("index")
    parser.add_argument("out")
    words = parser.parse_args()
    table = stars(words.index)
    table.write(words.out + ".new", format="fits", overwrite=True)
    os.replace(words.out + ".new", words.out)
    print(f"{words.out}: {len(table)} stars")


if __name__ == "__main__":
    main()
