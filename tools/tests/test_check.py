"""skyq check: an answer that is right is told to be, and a catalogue or a program that is wrong is found out."""
import csv
import os
import sys
import unittest

import astropy.units as u
import numpy as np
from astropy.table import Table
from astropy.time import Time

import programs
import support
from skyq_lib import flat

IS_REAL = programs.use()

# A program that leaves the last row out of each answer.
LOSER = """#!/bin/sh
"{program}" "$@" | {python} -c '
import re, sys
text = sys.stdin.read()
lost = lambda found: "" if found[1] == "0" else found[1]
blocks = re.split(r"(?m)^(?=query )", text)[1:]
for block in blocks:
    lines = block.splitlines()
    if lines[-1].endswith("chunks") and len(lines) > 3 and "COUNT" not in lines[1]:
        del lines[-2]
        count, more = lines[-1].split(" ", 1)
        lines[-1] = "%d %s" % (int(count) - 1, more)
    print("\\n".join(lines))
'
"""


class Check(support.WithFolder):
    def setUp(self):
        super().setUp()
        with open(support.TYCHO2, newline="", encoding="utf-8") as file:
            header, *rows = csv.reader(file)
        self.header, self.table = header, rows if IS_REAL else rows[::10]
        self.write(self.table)

    def write(self, rows):
        with open(self.path("stars.csv"), "w", newline="", encoding="utf-8") as file:
            csv.writer(file).writerows([self.header, *rows])

    def ingest(self, *words):
        done = programs.skyq("ingest", self.path("stars.csv"), self.path("stars"), *words)
        self.assertEqual(done.returncode, 0, done.stderr)

    def check(self, *words):
        return programs.skyq("check", self.path("stars"), "--queries", "12", *words)

    def test_a_right_catalogue(self):
        for words in ((), ("--degrees",)):
            self.ingest(*words)
            done = self.check("--source", self.path("stars.csv"))
            self.assertEqual((done.returncode, done.stderr), (0, ""), done.stdout)
            self.assertTrue(done.stdout.endswith("check: ok\n"))
            for line in done.stdout.splitlines()[1:-1]:
                self.assertRegex(line, r": [\d,]+ rows, 0 differ")
            self.assertRegex(done.stdout, rf"counts of vtmag: {len(self.table):,} rows, 0 differ")

    def test_a_row_that_has_moved_since_is_found(self):
        self.ingest()
        moved = [[row[0], row[1], str(float(row[2]) + 0.02 * (1 if float(row[2]) < 0 else -1)), *row[3:]] for row in self.table]
        self.write(moved)
        done = self.check("--source", self.path("stars.csv"))
        self.assertEqual(done.returncode, 1)
        self.assertRegex(done.stdout, r"cones of 1 to 20000 arcsec: [\d,]+ rows, [1-9]\d* differ")
        self.assertRegex(done.stdout, r"check: \d+ rows differ\n$")

    def test_another_table_is_told_to_be_one(self):
        self.ingest()
        self.write(self.table[1:])
        self.assertRefused(self.refused(), f"skyq check: {self.path('stars.csv')}: has other rows than the catalogue {self.path('stars')}")

    def refused(self):
        """The outcome of a check whose first line, of the degrees, does not come."""
        return self.check("--source", self.path("stars.csv"))

    def test_a_program_that_loses_a_row_is_found(self):
        self.ingest()
        with open(self.path("loser"), "w", encoding="utf-8") as file:
            file.write(LOSER.format(program=os.environ["SKYQ_PROGRAM"], python=sys.executable))
        os.chmod(self.path("loser"), 0o755)
        done = programs.skyq("check", self.path("stars"), "--queries", "12", program=self.path("loser"))
        self.assertEqual(done.returncode, 1, done.stdout + done.stderr)
        self.assertRegex(done.stdout, r"12 cones .* rows, [1-9]\d* differ")

    def test_a_column_that_is_called_as_the_kept_degrees_are(self):
        self.header, self.table = [*self.header, "ra_deg"], [[*row, str(place)] for place, row in enumerate(self.table)]
        self.write(self.table)
        self.ingest("--degrees")
        done = self.check()
        self.assertEqual((done.returncode, done.stderr), (0, ""), done.stdout)
        for name in ("ra", "dec", "ra_deg"):
            self.assertRegex(done.stdout, rf"counts of {name}: {len(self.table):,} rows, 0 differ")

    def test_words_and_tables_that_are_none(self):
        self.ingest()
        for words in (("--queries", "0"), ("--queries", "-1"), ("--seed", "-1")):
            self.assertRefused(programs.skyq("check", self.path("stars"), *words), "skyq check: --queries is at least 1, and --seed at least 0")
        self.assertRefused(programs.skyq("check", self.path("stars"), "--workers", "17"), "skyq check: --workers is 0 to 16")
        path = self.path("t.ecsv")
        table = Table({"id": [1], "dec": [0.0]})
        table["ra"] = Time(["2000-01-01"])
        table.write(path)
        self.assertRefused(self.check("--source", path), f"skyq check: {path}: column ra is a Time, which the engine cannot hold")
        table["ra"] = [1.0]
        table["ra"].unit = u.Unit("furlongs", parse_strict="silent")
        table.write(path, overwrite=True)
        self.assertRefused(self.check("--source", path), f"skyq check: {path}: column ra has the unit furlongs, which is no angle")

    def test_an_empty_catalogue(self):
        self.write([])
        self.ingest()
        self.assertRefused(self.check(), f"skyq check: {self.path('stars')}: the catalogue has no rows to check")


class Flat(unittest.TestCase):
    def test_pairs_by_cells_are_those_of_every_pair(self):
        draw = np.random.default_rng(2)
        for arcsec in (20.0, 36000.0, 200000.0):
            points = draw.normal(size=(400, 3)) * ([1e-4, 1e-4, 1e-4] if arcsec == 20.0 else [1, 1, 1]) + [0, 0, 1 if arcsec == 20.0 else 0]
            points /= np.linalg.norm(points, axis=1)[:, None]
            apart = np.linalg.norm(points[:, None] - points[None, :], axis=-1)
            want = np.argwhere(np.triu(apart <= 2 * np.sin(np.radians(arcsec / 3600) / 2), 1))
            self.assertGreater(len(want), 20)
            found = flat.pairs(points, arcsec)
            self.assertEqual(sorted(map(tuple, found.tolist())), sorted(map(tuple, want.tolist())))


if __name__ == "__main__":
    unittest.main()
