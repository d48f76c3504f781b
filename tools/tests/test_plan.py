"""Sky plans: each rule of docs/FORMATS.md, and how the rows fall into the chunks, placed here by angles on a square."""
import json
import os
import subprocess
import unittest
from unittest import mock

import numpy as np
import programs
from astropy.table import Table
from support import TYCHO2, WithFolder, skyq_here

from skyq_lib.errors import SkyqError
from skyq_lib.grid import to_grid
from skyq_lib.plan import SkyPlan, asked_overlap, plan_of


def sky(count, seed=1):
    draw = np.random.default_rng(seed)
    return draw.uniform(0, 360, count), np.degrees(np.arcsin(draw.uniform(-1, 1, count)))


def field(count, ra, dec, side, seed=1):
    draw = np.random.default_rng(seed)
    return draw.uniform(ra, ra + side, count) % 360, np.clip(draw.uniform(dec, dec + side, count), -90, 90)


def round_the_square(x, y):
    """How far round a square about the origin a direction is, from (1,0) anticlockwise, from 0 to 1."""
    x, y = np.asarray(x, "f8"), np.asarray(y, "f8")
    far = np.maximum(np.maximum(np.abs(x), np.abs(y)), 1)
    x, y = x / far, y / far
    steps = np.select([(x == 1) & (y >= 0), y == 1, x == -1, y == -1], [y, 2 - x, 4 - y, 6 + x], 8 + y)
    return steps / 8


def parts(plan, ra, dec, is_fine):
    """The number of rows of each chunk, or of each subchunk, that has any."""
    x, y, z = to_grid(ra, dec)
    stripe = np.searchsorted([s.z_low for s in plan.stripes], z, side="right") - 1
    lows = np.array([s.z_low for s in plan.stripes] + [268435473])
    chunks = np.array([s.chunks * (s.columns if is_fine else 1) for s in plan.stripes])[stripe]
    rows = np.array([s.rows if is_fine else 1 for s in plan.stripes])[stripe]
    wedge = np.floor(round_the_square(x, y) * chunks).astype("i8")
    row = (z - lows[stripe]) * rows // (lows[stripe + 1] - lows[stripe])
    return np.unique(np.stack([stripe, wedge, row]), axis=1, return_counts=True)[1]


SKIES = {
    "whole sky": sky(200000), "few": sky(20), "none": (np.zeros(0), np.zeros(0)), "one": (np.array([5.0]), np.array([5.0])),
    "a degree": field(100000, 150, 2, 1), "across 0": field(100000, 359.5, -30, 1), "a pole": (sky(100000)[0], field(100000, 0, 88.5, 1.5)[1]),
    "two fields": tuple(np.concatenate(pair) for pair in zip(field(50000, 10, 10, 2), field(50000, 200, -40, 2))),
    "a stripe": (sky(100000)[0], field(100000, 0, -1, 2)[1]), "all at one place": (np.full(30000, 80.0), np.full(30000, -70.0)),
    "field and sky": tuple(np.concatenate(pair) for pair in zip(field(100000, 10, 10, 1), sky(100000))),
}


class Rules(unittest.TestCase):
    def judge(self, text, name):
        """The rules of FORMATS, one by one, on the plan's text."""
        self.assertLessEqual(len(text), 65536)
        first, *lines = text.split("\n")[:-1]
        word, overlap = first.split(" ")
        self.assertTrue(word == "overlap" and 0 <= int(overlap) <= 16777216, name)
        self.assertTrue(1 <= len(lines) <= 256, name)
        stripes = [[int(number) for number in line.removeprefix("stripe ").split(" ")] for line in lines]
        lows = [stripe[0] for stripe in stripes] + [268435473]
        self.assertEqual(lows[0], -268435472, name)
        self.assertGreaterEqual(min(high - low for low, high in zip(lows, lows[1:])), 64, name)
        self.assertLessEqual(sum(stripe[1] for stripe in stripes), 16384, name)
        for _, chunks, columns, rows in stripes:
            self.assertTrue(1 <= chunks <= 1024 and 1 <= columns <= 64 and 1 <= rows <= 64, name)
            self.assertNotIn(2, (chunks, chunks * columns), name)

    def test_every_plan_is_one_that_the_engine_takes(self):
        for name, (ra, dec) in SKIES.items():
            for overlap, rows in ((0, 5000), (1, 300), (60, 5000), (3600, 1000), (12000, 5000)):
                self.judge(plan_of(ra, dec, overlap, rows).text(), (name, overlap, rows))

    def test_the_least_chunks_and_the_most(self):
        ra, dec = sky(20000)
        for rows, overlap in ((1, 0), (1, 60), (10**9, 60)):
            self.judge(plan_of(ra, dec, overlap, rows, 1).text(), (rows, overlap))

    def test_an_overlap_above_the_limit_is_refused(self):
        with self.assertRaises(SkyqError) as caught:
            asked_overlap("4deg")
        self.assertEqual(str(caught.exception), "an overlap of 14400 arcsec is above the limit, 12893.6 arcsec")
        self.assertEqual(asked_overlap("12893arcsec"), 12893)       # 2 asin(1/32) is 12893.7 arcsec


class Sizes(unittest.TestCase):
    def test_few_rows_are_in_chunks_that_are_too_full(self):
        for name in ("whole sky", "a degree", "across 0", "a stripe", "two fields", "field and sky", "a pole"):
            counts = parts(plan_of(*SKIES[name], 5), *SKIES[name], False)
            self.assertLess(counts.max(), 15000, name)
            self.assertLess(counts[counts > 10000].sum() / counts.sum(), 0.2, name)

    def test_chunks_have_about_the_rows_that_were_asked_for(self):
        for name in ("whole sky", "a degree", "across 0", "a stripe", "two fields", "a pole"):
            for wanted in (1000, 5000):
                counts = parts(plan_of(*SKIES[name], 5, wanted), *SKIES[name], False)
                self.assertTrue(0.5 * wanted < np.median(counts) < 2 * wanted, (name, wanted, np.median(counts)))

    def test_the_poles_are_cut_like_the_rest(self):
        ra, dec = sky(1000000)
        plan = plan_of(ra, dec, 60)
        counts = parts(plan, ra, dec, False)
        self.assertEqual(len(counts), plan.chunks)
        self.assertLess(counts.max(), 10000)

    def test_subchunks_have_30_to_100_rows(self):
        for name in ("whole sky", "a degree", "across 0", "a stripe", "two fields", "a pole"):
            counts = parts(plan_of(*SKIES[name], 5), *SKIES[name], True)
            self.assertTrue(30 <= counts.mean() <= 100, (name, counts.mean()))

    def test_a_part_is_no_thinner_than_eight_overlaps(self):
        ra, dec = sky(200000)
        plan = plan_of(ra, dec, 3600, 5000, 1)
        lows = np.degrees(np.arcsin(np.clip([*(s.z_low / 2**28 for s in plan.stripes), 1], -1, 1)))
        for stripe, low, high in zip(plan.stripes, lows, lows[1:]):
            widest = 0 if low < 0 < high else min(abs(low), abs(high))
            self.assertGreaterEqual((high - low) / stripe.rows, 8 - 1e-6)
            self.assertGreaterEqual(360 * np.cos(np.radians(widest)) / stripe.chunks / stripe.columns, 8 - 1e-6)
        self.assertGreater(max(stripe.columns * stripe.rows for stripe in plan.stripes), 1)


class Program(WithFolder):
    def test_its_report_has_the_same_rows_a_chunk(self):
        path, is_real = programs.found()
        if not is_real:
            self.skipTest("no program is built")
        folder = self.path("c")
        skyq_here("ingest", TYCHO2, folder)
        skyq_here("plan", folder, "--rows", "50")
        table, plan = Table.read(TYCHO2, format="ascii.csv"), SkyPlan.load(os.path.join(folder, "sky.txt"))
        words = [path, "load", os.path.join(folder, "sky.txt"), os.path.join(folder, "catalogue.csv")]
        report = subprocess.run(words, capture_output=True, text=True, check=True).stdout.splitlines()
        counts = parts(plan, np.asarray(table["ra"]), np.asarray(table["dec"]), False)
        self.assertEqual(report[0], f"2189 rows, {len(counts)} of {plan.chunks} chunks")
        self.assertEqual([int(line.split(": ")[1].split(" ")[0]) for line in report[1:]], counts.tolist())


class Command(WithFolder):
    def test_a_plan_is_made_anew_with_another_overlap(self):
        folder = self.path("c")
        self.assertEqual(skyq_here("ingest", TYCHO2, folder).returncode, 0)
        outcome = skyq_here("plan", folder, "--overlap", "5arcmin", "--rows", "50", "--subrows", "10")
        plan = SkyPlan.load(os.path.join(folder, "sky.txt"))
        self.assertEqual(outcome.stdout, f"{folder}/sky.txt: {len(plan.stripes)} stripes, {plan.chunks} chunks, overlap 300 arcsec\n")
        self.assertGreater(plan.chunks, 30)
        with open(os.path.join(folder, "columns.json"), encoding="utf-8") as file:
            self.assertEqual(json.load(file)["overlap_arcsec"], 300)
        self.assertEqual(sorted(os.listdir(folder)), ["catalogue.csv", "columns.json", "sky.txt"])

    def test_a_plan_that_fails_leaves_the_folder_as_it_was(self):
        folder = self.path("c")
        skyq_here("ingest", TYCHO2, folder)
        with open(os.path.join(folder, "sky.txt"), encoding="ascii") as file:
            before = file.read()
        with mock.patch("skyq_lib.columns.Catalogue.save", side_effect=OSError(28, "No space left on device")):
            outcome = skyq_here("plan", folder, "--overlap", "5arcmin", "--rows", "50")
        self.assertRefused(outcome, "skyq plan: No space left on device")
        with open(os.path.join(folder, "sky.txt"), encoding="ascii") as file:
            self.assertEqual(file.read(), before)
        self.assertEqual(sorted(os.listdir(folder)), ["catalogue.csv", "columns.json", "sky.txt"])

    def test_a_plan_of_no_catalogue_is_refused(self):
        self.assertRefused(skyq_here("plan", self.folder), f"skyq plan: {self.folder}: no catalogue folder: columns.json is missing; skyq ingest makes one")
        self.assertEqual(os.listdir(self.folder), [])


if __name__ == "__main__":
    unittest.main()
