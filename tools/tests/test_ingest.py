"""Catalogue folders: the values of real tables, one text from three formats, and what bad tables get."""
import json
import os
import resource
import signal
import subprocess
import unittest
from unittest import mock

import astropy.units as u
import numpy as np
from astropy.coordinates import SkyCoord
from astropy.table import Table
from astropy.time import Time
from support import OPENNGC, TYCHO2, WithFolder, skyq, skyq_here
from test_tables import with_nulls

from skyq_lib.columns import Catalogue, Column, degrees_of_rows, read_rows
from skyq_lib.errors import SkyqError
from skyq_lib.tables import write_table

FILES = ["catalogue.csv", "columns.json", "sky.txt"]


def content(path):
    with open(path, "rb") as file:
        return file.read()


class Values(WithFolder):
    def ingested(self, table, *words):
        folder = self.path("c")
        outcome = skyq_here("ingest", table, folder, *words)
        self.assertEqual((outcome.returncode, outcome.stderr), (0, ""))
        self.assertEqual(sorted(os.listdir(folder)), FILES)
        catalogue = Catalogue.load(folder)
        return catalogue, read_rows(catalogue)

    def test_tycho2_comes_back_row_by_row(self):
        catalogue, rows = self.ingested(TYCHO2, "--degrees")
        table = Table.read(TYCHO2, format="ascii.csv")
        table.sort("id")
        self.assertEqual((catalogue.rows, catalogue.id, catalogue.dropped), (2189, "id", 0))
        self.assertEqual(rows["objectId"].tolist(), table["id"].tolist())
        for name in ("vtmag", "sweep"):
            column = catalogue.column(name)
            self.assertEqual(column.values(rows[column.name].data).tolist(), table[name].tolist())
        self.assertEqual((catalogue.column("VTMAG").scale, catalogue.column("vtmag").exact), (1000, True))
        ra, dec = degrees_of_rows(catalogue, rows)
        self.assertEqual((ra.tolist(), dec.tolist()), (table["ra"].tolist(), table["dec"].tolist()))
        true = SkyCoord(table["ra"], table["dec"], unit="deg").cartesian.xyz.value * 2**28
        for name, want in zip("xyz", true):
            self.assertLess(np.abs(rows[name].data - want).max(), 0.5001)

    def test_openngc_keeps_its_nulls_and_words(self):
        catalogue, rows = self.ingested(OPENNGC)
        table = Table.read(OPENNGC, format="ascii.ecsv")
        self.assertEqual((catalogue.id, rows["objectId"].tolist()), (None, list(range(1, 201))))
        for name in ("mag", "major", "minor", "pa", "type", "name"):
            column = catalogue.column(name)
            back = column.values(rows[column.name].data, rows[column.name].mask)
            self.assertEqual(back.tolist(), table[name].tolist(), name)
            self.assertEqual(column.nulls, sum(value is None for value in table[name].tolist()))

    def test_rows_are_in_the_tables_order_and_read_by_id(self):
        with open(self.path("t.csv"), "w", encoding="utf-8") as file:
            file.write("id,ra,dec,m\n9,10,20,1\n0,30,40,\n9223372036854775807,0,0,3\n")
        _, rows = self.ingested(self.path("t.csv"))
        head = content(self.path("c", "catalogue.csv")).decode().splitlines()
        self.assertEqual([line.split(",")[0] for line in head], ["objectId", "9", "0", "9223372036854775807"])
        self.assertEqual((rows["objectId"].tolist(), rows["m"].tolist()), ([0, 9, 2**63 - 1], [None, 1, 3]))

    def test_one_table_gives_one_text_from_every_format(self):
        for source, form in ((TYCHO2, "ascii.csv"), (OPENNGC, "ascii.ecsv")):
            table = Table.read(source, format=form)
            texts = {}
            for ending, writer in (("fits", "fits"), ("vot", "votable"), ("ecsv", "ascii.ecsv")):
                path = self.path(f"t.{ending}")
                table.write(path, format=writer, overwrite=True)
                self.assertEqual(skyq_here("ingest", path, self.path(ending), "--degrees").returncode, 0)
                texts[ending] = [content(self.path(ending, name)) for name in ("catalogue.csv", "sky.txt")]
            self.assertEqual(texts["fits"], texts["vot"])
            self.assertEqual(texts["fits"], texts["ecsv"])
            self.assertEqual(texts["fits"][0].count(b"\n"), len(table) + 1)

    def test_nulls_of_every_kind_give_one_text_from_every_format(self):
        table = with_nulls()
        table.rename_column("id", "key")
        table["ra"], table["dec"] = [10.5, 20.25, 359.0], [-3.0, 0.5, 89.0]
        for ending in ("fits", "vot", "ecsv", "csv"):
            write_table(table, self.path(f"t.{ending}"))
            self.assertEqual(skyq_here("ingest", self.path(f"t.{ending}"), self.path(ending), "--drop", "key").returncode, 0)
            rows = content(self.path(ending, "catalogue.csv")).decode().splitlines()
            self.assertEqual([",".join(row.split(",")[4:]) for row in rows], ["small,mag,low,word,whole", "1,950,1,0,1", ",,,,2", "3,1025,30,1,3"], ending)

    def test_a_csv_of_a_spreadsheet_is_taken(self):
        with open(self.path("t.csv"), "w", encoding="utf-8-sig", newline="") as file:
            file.write('id,ra,dec,m,w\r\n1,10,20,NULL,"a, b"\r\n2,10,30,1.5,null\r\n')
        catalogue, rows = self.ingested(self.path("t.csv"))
        self.assertEqual((catalogue.id, rows["m"].tolist(), rows["w"].tolist(), catalogue.column("w").words), ("id", [None, 15], [0, None], ["a, b"]))

    def test_units_of_angle_are_taken(self):
        cases = [("degrees", [1, 2], [1, 2]), ("DEG", [1, 2], [1, 2]), ("", [1, 2], [1, 2]), ("rad", [0.1, 6.2], [5.729577951308232, 355.2338329811104]), ("arcmin", [60, 90], [1, 1.5]), ("hourangle", [1, 23.5], [15, 352.5])]
        for unit, values, want in cases:
            table = Table({"ra": np.array(values, "f8"), "dec": [0.0, 0.5]})
            table["ra"].unit = u.Unit(unit, parse_strict="silent")
            table.write(self.path("t.ecsv"), overwrite=True)
            catalogue, rows = self.ingested(self.path("t.ecsv"), "--degrees")
            np.testing.assert_allclose(degrees_of_rows(catalogue, rows)[0], want, rtol=0, atol=6e-13)

    def test_a_unit_that_nobody_knows_is_no_angle(self):
        table = Table({"ra": [1.0], "dec": [0.0]})
        table["ra"].unit = u.Unit("furlongs", parse_strict="silent")
        table.write(self.path("t.ecsv"))
        self.assertRefused(skyq_here("ingest", self.path("t.ecsv"), self.path("c")),
                           f"skyq ingest: {self.path('t.ecsv')}: column ra has the unit furlongs, which is no angle")

    def test_a_column_that_is_called_as_the_kept_degrees_are(self):
        with open(self.path("t.csv"), "w", encoding="utf-8") as file:
            file.write("ra,dec,ra_deg,dec_deg,g-r,g_r\n10.25,20.5,7,8,1,2\n10.25,20.75,9,11,3,4\n")
        own = {"ra_deg": [7, 9], "dec_deg": [8, 11], "g-r": [1, 3], "g_r": [2, 4]}
        for words in ((), ("--degrees",)):
            catalogue, rows = self.ingested(self.path("t.csv"), *words)
            self.assertEqual(catalogue.has_degrees, bool(words))
            for name, want in own.items():
                column = catalogue.column(name)
                self.assertEqual((column.source, column.values(rows[column.name].data).tolist()), (name, want), words)
            ra, dec = degrees_of_rows(catalogue, rows)
            np.testing.assert_allclose([ra, dec], [[10.25, 10.25], [20.5, 20.75]], rtol=0, atol=0 if words else 2e-7)

    def test_a_column_healpix_is_not_hidden_by_the_one_that_is_added(self):
        with open(self.path("t.csv"), "w", encoding="utf-8") as file:
            file.write("ra,dec,HEALPix\n90,0,7\n")
        self.assertRefused(skyq_here("ingest", self.path("t.csv"), self.path("c"), "--healpix", "1"), f"skyq ingest: {self.path('t.csv')}: "
                           "--healpix adds a column healpix, and the table has one: leave it out with --drop, or do without --healpix")

    def test_columns_are_chosen_scaled_and_left_out(self):
        cases = [((), ["vtmag", "sweep"], 1000), (("--column", "vtmag"), ["vtmag"], 1000), (("--column", "vtmag:10", "--column", "sweep"), ["vtmag", "sweep"], 10),
                 (("--drop", "sweep"), ["vtmag"], 1000), (("--scale", "vtmag:1e4"), ["vtmag", "sweep"], 10000)]
        for words, names, scale in cases:
            catalogue, rows = self.ingested(TYCHO2, *words)
            self.assertEqual(([column.source for column in catalogue.columns], catalogue.column("vtmag").scale), (names, scale), words)
        self.assertEqual(rows["vtmag"][0], 108690)

    def test_columns_are_found_by_their_ucd(self):
        table = Table({"a": [10.0], "d": [90.0], "n": [7], "m": [1.5]})
        for name, ucd in (("a", "pos.eq.ra;meta.main"), ("d", "POS.EQ.DEC;META.MAIN"), ("n", "meta.id;meta.main")):
            table[name].meta["ucd"] = ucd
        table.write(self.path("t.vot"), format="votable")
        catalogue, rows = self.ingested(self.path("t.vot"))
        self.assertEqual((catalogue.ra, catalogue.dec, catalogue.id, rows["objectId"].tolist()), ("a", "d", "n", [7]))

    def test_times_and_coordinates_are_left_out(self):
        table = Table({"ra": [10.0], "dec": [20.0]})
        table["when"] = Time(["2000-01-01"])
        table["where"] = SkyCoord([1.0], [2.0], unit="deg")
        table.write(self.path("t.ecsv"))
        outcome = skyq_here("ingest", self.path("t.ecsv"), self.path("c"))
        self.assertEqual(outcome.stderr, "".join(
            f"skyq ingest: {self.path('t.ecsv')}: column {name} is a {kind}, which the engine cannot hold: it is left out\n"
            for name, kind in (("when", "Time"), ("where", "SkyCoord"))))
        self.assertRefused(skyq_here("ingest", self.path("t.ecsv"), self.path("d"), "--ra", "where"),
                           f"skyq ingest: {self.path('t.ecsv')}: column where is a SkyCoord, which the engine cannot hold")

    def test_healpix_pixels_are_those_of_nested_order(self):
        with open(self.path("t.csv"), "w", encoding="utf-8") as file:
            file.write("ra,dec\n90,0\n45,89.9\n225,-89.9\n")      # the middle of base pixel 5, and near the poles 0 and 10
        try:
            catalogue, rows = self.ingested(self.path("t.csv"), "--healpix", "1")
        except AssertionError:
            if subprocess.run([os.environ.get("SKYQ_PYTHON", "python3"), "-c", "import astropy_healpix"], capture_output=True).returncode:
                self.skipTest("astropy_healpix is missing")
            raise
        self.assertEqual(rows["healpix"].tolist(), [5, 0, 10])
        self.assertEqual(catalogue.column("healpix").description, "HEALPix pixel, nside 1, nested")

    def test_the_report_says_what_became_of_each_column(self):
        outcome = skyq_here("ingest", OPENNGC, self.path("c"), "--scale", "mag:1", "--id", "none")
        self.assertEqual(outcome.stdout.splitlines()[1:], [
            "objectId: the number of the row in the table, from 1",
            "position: ra, dec, moved by at most 0.596 mas",
            "mag: float, scale 1, largest error 0.5, 29 NULL",
            "major: float, scale 100, exact, 28 NULL",
            "minor: float, scale 100, exact, 35 NULL",
            "pa: float, scale 1, exact, 38 NULL",
            "type: int",
            "name: word, 200 words",
        ])
        self.assertRegex(outcome.stdout.splitlines()[0], f"^{self.path('c')}: 200 rows, 6 columns, [0-9]+ stripes?, [0-9]+ chunks?, overlap 60 arcsec$")


class Folders(WithFolder):
    def test_a_catalogue_is_made_anew_and_other_files_stay(self):
        folder = self.path("c")
        self.assertEqual(skyq_here("ingest", OPENNGC, folder).returncode, 0)
        with open(os.path.join(folder, "notes.txt"), "w", encoding="utf-8") as file:
            file.write("mine")
        self.assertEqual(skyq_here("ingest", TYCHO2, folder).returncode, 0)
        self.assertEqual(sorted(os.listdir(folder)), sorted([*FILES, "notes.txt"]))
        self.assertEqual(Catalogue.load(folder).rows, 2189)

    def test_a_refused_table_leaves_the_catalogue_that_is_there(self):
        folder = self.path("c")
        skyq_here("ingest", OPENNGC, folder)
        before = [content(os.path.join(folder, name)) for name in FILES]
        with open(self.path("bad.csv"), "w", encoding="utf-8") as file:
            file.write("ra,dec\n1,91\n")
        self.assertEqual(skyq_here("ingest", self.path("bad.csv"), folder).returncode, 2)
        self.assertEqual([content(os.path.join(folder, name)) for name in FILES], before)
        self.assertEqual(sorted(os.listdir(folder)), FILES)

    def test_a_place_that_is_no_catalogue_is_refused(self):
        with open(self.path("file"), "w", encoding="utf-8") as file:
            file.write("mine")
        self.assertRefused(skyq_here("ingest", OPENNGC, self.path("file")), f"skyq ingest: {self.path('file')}: is there and is no folder")
        self.assertRefused(skyq_here("ingest", OPENNGC, self.folder), f"skyq ingest: {self.folder}: holds other files and is no catalogue folder; name a new one")
        self.assertEqual(os.listdir(self.folder), ["file"])

    def test_an_ingest_that_was_killed_leaves_nothing_in_the_way(self):
        ended = subprocess.Popen(["true"])
        ended.wait()
        os.makedirs(self.path("c"))
        for name in (f"catalogue.csv.new-{ended.pid}", f"sky.txt.new-{ended.pid}", f"catalogue.csv.new-{os.getpid()}"):
            with open(self.path("c", name), "w", encoding="utf-8") as file:
                file.write("half")
        self.assertEqual(skyq_here("ingest", OPENNGC, self.path("c")).returncode, 0)
        self.assertEqual(sorted(os.listdir(self.path("c"))), FILES)

    def test_a_disk_that_is_full_leaves_nothing(self):
        def no_large_files():
            resource.setrlimit(resource.RLIMIT_FSIZE, (20000, 20000))
            signal.signal(signal.SIGXFSZ, signal.SIG_IGN)

        before = self.path("before")
        skyq_here("ingest", OPENNGC, before)
        for folder in (self.path("c"), before):
            self.assertRefused(skyq("ingest", TYCHO2, folder, preexec_fn=no_large_files), "skyq ingest: File too large")
        self.assertEqual((os.path.exists(self.path("c")), sorted(os.listdir(before)), Catalogue.load(before).rows), (False, FILES, 200))

    def test_limits_of_the_engine_are_told(self):
        path = self.path("t.csv")
        with open(path, "w", encoding="utf-8") as file:
            file.write("ra,dec\n1,2\n3,4\n")
        cases = [("skyq_lib.ingest.MOST_ROWS", 1, "2 rows; the engine takes 1"), ("skyq_lib.folders.MOST_BYTES", 60, "73 bytes of text; the engine takes 60: "
                  "leave columns out with --drop, or round them with --scale")]
        for name, limit, want in cases:
            with mock.patch(name, limit):
                self.assertRefused(skyq_here("ingest", path, self.path("c")), f"skyq ingest: {path}: {want}")
            self.assertFalse(os.path.exists(self.path("c")))

    def test_a_sidecar_is_plain_json(self):
        skyq_here("ingest", OPENNGC, self.path("c"))
        with open(self.path("c", "columns.json"), encoding="utf-8") as file:
            sidecar = json.load(file)
        self.assertEqual((sidecar["format"], sidecar["rows"], sidecar["overlap_arcsec"]), ("skyq catalogue 1", 200, 60.0))
        self.assertEqual(sidecar["columns"][0]["scale"], 100)

    def test_a_sidecar_of_something_else_is_refused(self):
        skyq_here("ingest", OPENNGC, self.path("c"))
        path = self.path("c", "columns.json")
        for text in ("", "[]", "{}", '{"format": "skyq catalogue 0"}', '{"format": "skyq catalogue 1", "columns": []}', '{"format": "skyq catalogue 1", "columns": [3]}'):
            with open(path, "w", encoding="utf-8") as file:
                file.write(text)
            outcome = skyq_here("plan", self.path("c"))
            self.assertEqual((outcome.returncode, outcome.stderr.count("\n")), (2, 1), text)
            self.assertTrue(outcome.stderr.startswith(f"skyq plan: {path}: is "), outcome.stderr)

    def test_a_sidecar_with_a_wrong_value_is_refused(self):
        skyq_here("ingest", OPENNGC, self.path("c"))
        path = self.path("c", "columns.json")
        with open(path, encoding="utf-8") as file:
            right = json.load(file)
        of_catalogue = [("rows", "200"), ("rows", True), ("id", 3), ("ra", None), ("overlap_arcsec", "60"), ("columns", {}), ("columns", [3])]
        of_column = [("name", "a b"), ("name", 1), ("source", None), ("kind", "date"), ("unit", 1), ("scale", 0), ("scale", 10.5), ("scale", "10"), ("exact", 1),
                     ("words", "abc"), ("words", ["a"]), ("type", "complex128"), ("type", "nothing"), ("type", "str"), ("description", [])]
        cases = [{**right, name: value} for name, value in of_catalogue]
        cases += [{**right, "columns": [{**right["columns"][0], name: value}]} for name, value in of_column]
        cases += [{**right, "columns": [{**right["columns"][-1], "words": value}]} for value in (None, [1, 2])]
        self.assertEqual((right["columns"][0]["kind"], right["columns"][-1]["kind"]), ("float", "word"))
        for number, sidecar in enumerate(cases):
            with open(path, "w", encoding="utf-8") as file:
                json.dump(sidecar, file)
            with self.subTest(number):
                self.assertRefused(skyq_here("plan", self.path("c")), f"skyq plan: {path}: is no sidecar of a catalogue; ingest the table again")

    def test_a_word_that_the_sidecar_does_not_list_is_told(self):
        column = Column("w", "w", "word", words=["a", "b"], type="str")
        self.assertEqual(column.values([1, 9], [False, True]).tolist(), ["b", None])
        for number in (2, -1):
            with self.assertRaises(SkyqError):
                column.values([number])


if __name__ == "__main__":
    unittest.main()
