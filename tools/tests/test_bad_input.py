"""Tables that are awkward or wrong: what each gets, line for line, and that nothing half written stays."""
import os
import unittest

import astropy.units as u
import numpy as np
from astropy.table import Table
from support import WithFolder, skyq, skyq_here

TWO = {"id": [1, 2], "ra": [1.0, 2.0], "dec": [0.0, 1.0]}


def with_units(unit_ra, unit_dec):
    table = Table({"id": [1, 2], "ra": [0.1, 0.2], "dec": [60.0, 90.0]})
    table["ra"].unit, table["dec"].unit = unit_ra, unit_dec
    return table


# name: (table, words, the line behind the file's name)
REFUSED = {
    "no_position": (Table({"id": [1, 2], "a": [1.0, 2.0]}), (), "no columns of right ascension and declination among id, a; name them with --ra and --dec"),
    "bad_dec": (Table({**TWO, "dec": [0.0, 91.0]}), (), "row 2: declination 91.0 is outside -90 to 90"),
    "twice": (Table({**TWO, "id": [1, 1]}), (), "row 2: column id repeats the id 1; --id none numbers the rows"),
    "negative_id": (Table({**TWO, "id": [-1, 1]}), (), "row 1: column id has the id -1, outside 0 to 2^63-1; --id none numbers the rows"),
    "big_int": (Table({**TWO, "flux": [2**60, 1]}), (), "row 1: column flux: 1152921504606846976 is beyond 2^50; leave it out with --drop flux"),
    "big_float": (Table({**TWO, "flux": [1e30, 1.0]}), (),
                  "row 1: column flux: 1e+30 times 1 passes 2^50; give it in another unit, or leave it out with --drop flux"),
    "tiny": (Table({**TWO, "flux": [1e-30, 1.0]}), (), "row 1: column flux: 1e-30 beside 1 comes back as 0 at the largest scale that fits, "
             "1000000000000000; accept that with --scale flux:1000000000000000, or leave the column out with --drop flux"),
    "many": (Table({"id": [1], "ra": [1.0], "dec": [0.0], **{f"c{k}": [k] for k in range(13)}}), (),
             "13 columns beside the position, c0, c1, c2, c3, c4, c5, c6, c7, c8, c9, c10, c11, c12; the engine takes 12: "
             "choose them with --column or leave some out with --drop"),
    "metres": (with_units(u.m, u.arcmin), (), "column ra has the unit m, which is no angle"),
    "hours": (with_units(u.deg, u.h), (), "column dec has the unit h, which is no angle"),
    "radians": (with_units(u.rad, u.rad), (), "row 1: declination 60.0 rad, 3437.746771 degrees, is outside -90 to 90"),
    "one_for_two": (Table(TWO), ("--ra", "dec", "--dec", "dec"), "column dec is named both as right ascension and as declination"),
    "drop_of_position": (Table(TWO), ("--drop", "ra"), "column ra is of the position, which is always taken; --degrees keeps its degrees too"),
    "word_ids": (Table({**TWO, "name": ["a", "b"]}), ("--id", "name"), "column name has no whole numbers for ids; --id none numbers the rows"),
    "text_ra": (Table({**TWO, "ra": ["1.5", "05:34:32"]}), (), "row 2: column ra has '05:34:32', which is no number of degrees"),
    "array_ra": (Table({"ra": [[1.0, 2.0]], "dec": [1.0]}), (), "column ra holds arrays, not angles"),
    "array_asked": (Table({**TWO, "v": [[1, 2], [3, 4]]}), ("--column", "v"), "column v holds arrays"),
    "unknown_column": (Table(TWO), ("--column", "vmag"), "no column vmag among id, ra, dec"),
    "unknown_ra": (Table(TWO), ("--ra", "RA2"), "no column RA2 among id, ra, dec"),
    "unknown_id": (Table(TWO), ("--id", "key"), "no column key among id, ra, dec"),
    "scaled_int": (Table({**TWO, "n": [1, 2]}), ("--scale", "n:10"), "column n holds no floats, so it takes no scale"),
    "column_of_position": (Table(TWO), ("--column", "ra"), "column ra is of the position, which is always taken; --degrees keeps its degrees too"),
    "drop_of_id": (Table(TWO), ("--drop", "id"), "column id is the objectId, which is always taken; --id none numbers the rows"),
    "large_scale": (Table({**TWO, "mag": [9.5, 8.5]}), ("--scale", "mag:1e15"),
                    "row 1: column mag: 9.5 times 1000000000000000 passes 2^50; give it a smaller scale, or leave it out with --drop mag"),
}

# name: (table, words, the catalogue's text, the notes on standard error)
TAKEN = {
    "nan_ra": (Table({"id": [1, 2, 3], "ra": [0.0, np.nan, 90.0], "dec": [0.0, 1.0, 0.0]}), (), "objectId,x,y,z;1,268435456,0,0;3,0,268435456,0", []),
    "inf": (Table({**TWO, "ra": [0.0, 90.0], "dec": [0.0, 0.0], "flux": [np.inf, 1.0]}), (), "objectId,x,y,z,flux;1,268435456,0,0,;2,0,268435456,0,1",
            ["column flux: 1 infinite value becomes NULL, the first in row 1"]),
    "array": (Table({"id": [5], "ra": [180.0], "dec": [0.0], "v": [[1, 2]]}), (), "objectId,x,y,z;5,-268435456,0,0", ["column v holds arrays: it is left out"]),
    "bool_word": (Table({"id": [1, 2], "ra": [0.0, 0.0], "dec": [90.0, -90.0], "ok": [True, False], "w": ["a", ""]}), (),
                  "objectId,x,y,z,ok,w;1,0,0,268435456,1,0;2,0,0,-268435456,0,", []),
    "empty": (Table({"id": np.zeros(0, int), "ra": np.zeros(0), "dec": np.zeros(0), "m": np.zeros(0)}), (), "objectId,x,y,z,m", []),
    "reserved": (Table({"id": [1], "ra": [0.0], "dec": [0.0], "min": [3], "x": [4], "g-r": [0.5], "g_r": [7], "1st": [1]}), (),
                 "objectId,x,y,z,min_,x_,g_r,g_r_2,c_1st;1,268435456,0,0,3,4,5,7,1", []),
    "pole_wrap": (Table({"id": [1, 2, 3, 4], "ra": [0.0, 360.0, -90.0, 720.0], "dec": [90.0, -90.0, 0.0, 0.0]}), (),
                  "objectId,x,y,z;1,0,0,268435456;2,0,0,-268435456;3,0,-268435456,0;4,268435456,0,0", []),
    "rad_arcmin": (with_units(u.rad, u.arcmin), (), "objectId,x,y,z;1,267053717,26794747,4684845;2,262994466,53311618,7026821", []),
    "word_id": (Table({"id": ["a", "b"], "ra": [0.0, 0.0], "dec": [0.0, 0.0]}), (), "objectId,x,y,z,id;1,268435456,0,0,0;2,268435456,0,0,1",
                ["column id has no whole numbers, so the rows are numbered from 1"]),
    "long_names": (Table({"ra": [0.0], "dec": [0.0], "a" * 40: [1], "a" * 41: [2]}), (), f"objectId,x,y,z,{'a' * 32},{'a' * 30}_2;1,268435456,0,0,1,2", []),
}


class BadTables(WithFolder):
    def test_what_is_wrong_is_refused_in_one_line(self):
        for name, (table, words, want) in REFUSED.items():
            path = self.path(f"{name}.fits")
            table.write(path)
            with self.subTest(name):
                self.assertRefused(skyq_here("ingest", path, self.path("c"), *words), f"skyq ingest: {path}: {want}")
                self.assertFalse(os.path.exists(self.path("c")))

    def test_what_is_awkward_is_taken(self):
        for name, (table, words, want, notes) in TAKEN.items():
            path = self.path(f"{name}.fits")
            table.write(path)
            with self.subTest(name):
                outcome = skyq_here("ingest", path, self.path(name), *words)
                self.assertEqual((outcome.returncode, outcome.stderr), (0, "".join(f"skyq ingest: {path}: {note}\n" for note in notes)))
                with open(self.path(name, "catalogue.csv"), encoding="ascii") as file:
                    self.assertEqual(file.read(), want.replace(";", "\n") + "\n")

    def test_a_row_without_a_position_is_told(self):
        table, path = TAKEN["nan_ra"][0], self.path("nan.fits")
        table.write(path)
        self.assertIn("\n1 row without a position is left out\n", skyq("ingest", path, self.path("c")).stdout)

    def test_a_row_of_a_message_is_the_tables_own(self):
        path = self.path("t.csv")
        with open(path, "w", encoding="utf-8") as file:
            file.write("id,ra,dec,flux\n1,,0,1\n2,5,5,1\n1,5,5,1\n2,6,6,1\n")      # row 1 has no position
        self.assertRefused(skyq("ingest", path, self.path("c")), f"skyq ingest: {path}: row 4: column id repeats the id 2; --id none numbers the rows")


class Words(WithFolder):
    def test_wrong_words_are_told_in_one_line(self):
        path = self.path("t.fits")
        Table(TWO).write(path)
        cases = [
            (("ingest",), "skyq ingest: the following arguments are required: TABLE, FOLDER; see skyq ingest --help"),
            (("ingest", path), "skyq ingest: the following arguments are required: FOLDER; see skyq ingest --help"),
            (("ingest", path, self.path("c"), "--wide"), "skyq ingest: unrecognized arguments: --wide; see skyq ingest --help"),
            (("ingest", path, self.path("c"), "--overlap", "60"), "skyq ingest: 60 has no unit of angle: write it as 60arcsec, 60arcmin or 60deg"),
            (("ingest", path, self.path("c"), "--overlap", "4deg"), "skyq ingest: an overlap of 14400 arcsec is above the limit, 12893.6 arcsec"),
            (("ingest", path, self.path("c"), "--scale", "mag"), "skyq ingest: --scale mag: give NAME:SCALE, as in mag:1000"),
            (("ingest", path, self.path("c"), "--scale", "mag:3"), "skyq ingest: mag:3: a scale is a power of ten from 1 to 1e40"),
            (("ingest", path, self.path("c"), "--healpix", "3"), f"skyq ingest: {path}: --healpix 3: nside is a power of two, at most 2^20"),
            (("ingest", self.path("none.fits"), self.path("c")), f"skyq ingest: {self.path('none.fits')}: No such file or directory"),
            (("ingest", "t.parquet", self.path("c")), "skyq ingest: t.parquet: the ending is none of .fits, .fit, .fits.gz, .vot, .vot.gz, .xml, .ecsv, .csv"),
            (("ingest", path, self.path("none", "t.fits", "..", "..", "t.fits")), f"skyq ingest: {self.path('none', 't.fits', '..', '..', 't.fits')}: is there and is no folder"),
            (("fly",), "skyq: no command fly; skyq --help lists them"),
        ]
        os.makedirs(self.path("none", "t.fits"))
        for words, line in cases:
            with self.subTest(words):
                self.assertRefused(skyq_here(*words), line)
        self.assertFalse(os.path.exists(self.path("c")))

    def test_a_fault_ends_the_process_with_its_line_and_status(self):
        self.assertRefused(skyq("ingest", self.path("none.fits"), self.path("c")), f"skyq ingest: {self.path('none.fits')}: No such file or directory")

    def test_help_is_on_standard_output(self):
        for words in ((), ("--help",), ("ingest", "--help")):
            outcome = skyq(*words)
            self.assertEqual((outcome.returncode, outcome.stderr, outcome.stdout[:11]), (0, "", "usage: skyq"))


if __name__ == "__main__":
    unittest.main()
