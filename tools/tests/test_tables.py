"""Files of tables, written by skyq and read back by astropy alone, and faulty files."""
import os
import unittest

import astropy.units as u
import numpy as np
from astropy.table import MaskedColumn, Table
from support import OPENNGC, TYCHO2, WithFolder

from skyq_lib.errors import SkyqError
from skyq_lib.tables import format_of, read_table, write_table


def with_nulls():
    """A table with a NULL in each kind of column."""
    none = [False, True, False]
    return Table({
        "id": MaskedColumn([2**53 + 1, 0, -5], mask=none, dtype="i8"),
        "small": MaskedColumn([1, 2, 3], mask=none, dtype="i2"),
        "mag": MaskedColumn([9.5, 0, 10.25], mask=none, unit=u.mag, description="a magnitude"),
        "low": MaskedColumn(np.array([0.1, 0, 3], "f4"), mask=none),
        "word": MaskedColumn(["G2", "", "K0"], mask=none),
        "whole": [1, 2, 3],
    })


class Written(WithFolder):
    def test_each_format_keeps_values_units_and_nulls(self):
        for ending, form in [("fits", "fits"), ("vot", "votable"), ("ecsv", "ascii.ecsv"), ("csv", "ascii.csv")]:
            path = self.path(f"t.{ending}")
            write_table(with_nulls(), path)
            back = Table.read(path, format=form)
            for name in ("id", "small", "mag", "low", "whole"):
                want = with_nulls()[name]
                found = np.ma.asarray(back[name])
                mask = np.ma.getmaskarray(found) | (np.isnan(found.filled(0)) if found.dtype.kind == "f" else False)
                self.assertEqual(mask.tolist(), [False, name != "whole", False], (ending, name))
                self.assertEqual(np.ma.getdata(found)[[0, 2]].tolist(), want.tolist()[::2] if (ending, name) != ("csv", "low") else [0.1, 3.0], (ending, name))
            self.assertEqual([str(word) for word in back["word"][[0, 2]]], ["G2", "K0"], ending)
            if ending != "csv":
                self.assertEqual(back["mag"].unit, u.mag, ending)
        self.assertEqual(sorted(os.listdir(self.folder)), ["t.csv", "t.ecsv", "t.fits", "t.vot"])

    def test_fits_keeps_every_type_with_its_nulls(self):
        """With numbers that astropy by itself would write for NULL, and the least of each type."""
        for form in ("?", "i1", "u1", "i2", "u2", "i4", "u4", "i8", "u8", "f4", "f8", "U3"):
            kind = np.dtype(form).kind
            values = ["abc", "b", "c"] if kind == "U" else [True, False, True] if kind == "b" else [1, 63, 100]
            values += [] if kind in "Ub" or form in ("i1", "u1") else [16959]
            values += [999999] if form in ("i4", "u4", "i8", "u8", "f4", "f8") else []
            values += [np.iinfo(form).min] if form in ("i1", "i2", "i4") else []
            values = np.array([*values, values[0]], form)
            for mask in (np.zeros(len(values), bool), np.arange(len(values)) == len(values) - 1):
                table = Table({"c": MaskedColumn(values, mask=mask), "other": MaskedColumn([0.5] * len(values), mask=~mask)})
                write_table(table, self.path("t.fits"))
                back = Table.read(self.path("t.fits"))["c"]
                want = [None if missing else value for value, missing in zip(values.tolist(), mask)]
                found = [None if value != value or value == "" else value for value in back.tolist()]
                self.assertEqual(found, want, (form, mask))
                self.assertEqual(back.dtype.kind == "b", kind == "b" and not mask.any(), form)

    def test_what_fits_cannot_hold_is_told(self):
        path = self.path("t.fits")
        for table, want in ((Table({"a": ["x", "δ"]}), "column a has 'δ'"), (Table({"δ": [1]}), "column δ has 'δ'")):
            with self.assertRaises(SkyqError) as caught:
                write_table(table, path)
            self.assertEqual(str(caught.exception), f"{path}: FITS holds ASCII alone, and {want}: VOTable, ECSV and CSV hold it")
            for ending in ("vot", "ecsv", "csv"):
                write_table(table, self.path(f"t.{ending}"))
                self.assertEqual(read_table(self.path(f"t.{ending}")).colnames, table.colnames)
        self.assertFalse(os.path.exists(path))

    def test_a_folder_that_is_missing_is_told_by_the_files_own_name(self):
        path = self.path("none", "t.csv")
        with self.assertRaises(SkyqError) as caught:
            write_table(Table({"a": [1]}), path)
        self.assertEqual(str(caught.exception), f"{path}: No such file or directory")

    def test_a_file_that_is_there_is_replaced_and_a_fault_leaves_it(self):
        path = self.path("t.fits")
        write_table(Table({"a": [1]}), path)
        write_table(Table({"a": [2]}), path)
        self.assertEqual(Table.read(path)["a"].tolist(), [2])
        with self.assertRaises(SkyqError):
            write_table(Table({"a": [object()]}), path)
        self.assertEqual((Table.read(path)["a"].tolist(), os.listdir(self.folder)), ([2], ["t.fits"]))

    def test_an_empty_table_is_written(self):
        for ending in ("fits", "vot", "ecsv", "csv"):
            path = self.path(f"empty.{ending}")
            write_table(with_nulls()[:0], path)
            self.assertEqual(len(read_table(path)), 0, ending)
            self.assertEqual(read_table(path).colnames, with_nulls().colnames, ending)


class Read(WithFolder):
    def test_endings_choose_the_format(self):
        cases = [("a.fits", "fits"), ("A.FIT", "fits"), ("a.fits.gz", "fits"), ("a.vot", "votable"), ("a.xml", "votable"), ("a.ecsv", "ecsv"), ("a.csv", "csv")]
        for path, want in cases:
            self.assertEqual(format_of(path), want)
        with self.assertRaises(SkyqError) as caught:
            format_of("a.parquet")
        self.assertEqual(str(caught.exception), "a.parquet: the ending is none of .fits, .fit, .fits.gz, .vot, .vot.gz, .xml, .ecsv, .csv")

    def test_the_real_data_are_read(self):
        tycho2, openngc = read_table(TYCHO2), read_table(OPENNGC)
        self.assertEqual((len(tycho2), tycho2.colnames), (2189, ["id", "ra", "dec", "vtmag", "sweep"]))
        self.assertEqual((len(openngc), int(openngc["mag"].mask.sum())), (200, 29))

    def test_faulty_files_are_told_in_one_line(self):
        fits = self.path("whole.fits")
        Table({"ra": np.arange(1000.0), "dec": np.zeros(1000)}).write(fits)
        with open(fits, "rb") as file:
            whole = file.read()
        cases = [
            ("cut.fits", whole[:8000], None), ("not.fits", b"no fits at all", None), ("empty.fits", b"", None),
            ("not.vot", b"<html><body>404</body></html>", None), ("cut.vot", b'<?xml version="1.0"?><VOTABLE><RESOURCE>', None),
            ("empty.csv", b"", None), ("not.ecsv", b"ra,dec\n1,2\n", None), ("short.csv", b"ra,dec,m\n1,2,3\n1,2\n", 2), ("long.csv", b"ra,dec\n1,2\n1,2\n1,2,3\n", 3),
            ("bytes.csv", bytes(range(256)), None),
        ]
        for name, content, row in cases:
            with open(self.path(name), "wb") as file:
                file.write(content)
            with self.assertRaises(SkyqError, msg=name) as caught:
                read_table(self.path(name))
            line = str(caught.exception)
            self.assertNotIn("\n", line)
            self.assertTrue(line.startswith(self.path(name) + ": "), line)
            self.assertEqual(caught.exception.row, row, line)

    def test_what_is_wrong_with_a_text_is_told_in_plain_words(self):
        cases = [
            ("twice.csv", b"ra,dec,m,m\n1,2,3,4\n", "the header has m twice"),
            ("comment.csv", b"# of a survey\nra,dec\n1,2\n", "begins with a comment, and a CSV begins with its header: take the lines with # away"),
            ("one.csv", b"ra,dec\n1\n", "row 1: 1 field; the header has 2"),
            ("damaged.ecsv", b"# %ECSV 1.0\n# ---\n# datatype:\n# - ra\nra\n1\n", "cannot be read as ecsv: it is damaged"),
        ]
        for name, content, want in cases:
            with open(self.path(name), "wb") as file:
                file.write(content)
            with self.assertRaises(SkyqError, msg=name) as caught:
                read_table(self.path(name))
            self.assertEqual(str(caught.exception), f"{self.path(name)}: {want}")

    def test_a_file_that_is_missing_or_a_folder_is_an_error_of_the_system(self):
        for name in (self.path("none.fits"),):
            with self.assertRaises(FileNotFoundError):
                read_table(name)


if __name__ == "__main__":
    unittest.main()
