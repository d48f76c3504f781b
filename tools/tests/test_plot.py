"""Pictures: the numbers that they show, and that each is a picture; what is refused."""
import importlib.util
import os
import unittest
from unittest import mock

import numpy as np

import programs
import support
from skyq_lib import columns, grid, pictures, plot
from skyq_lib.partition import Partition

HAS = importlib.util.find_spec("matplotlib") is not None
# Twelve stars in a field, some of them near each other; the distances are along a declination or a right ascension.
FIELD = """id,ra,dec
1,150.0,2.0
2,150.0,2.005
3,150.0,2.01
4,150.5,2.2
5,151.0,2.4
6,149.5,1.6
7,149.0,1.8
8,150.2,2.9
9,150.7,1.1
10,149.2,2.7
11,150.9,2.8
12,150.9,2.8025
"""


class Cells(unittest.TestCase):
    def test_cells_have_about_one_area_and_cover_the_sky(self):
        for side in (15, 5, 1.7):
            cells = pictures.Cells(side)
            self.assertAlmostEqual(cells.areas.sum(), 41252.96, delta=0.1)
            self.assertLess(np.abs(cells.areas[cells.across[0]:-cells.across[-1]] / cells.area - 1).max(), 0.25)

    def test_rows_at_random_fill_cells_by_their_area(self):
        rng, cells = np.random.default_rng(2), pictures.Cells(10)
        ra, dec = rng.uniform(0, 360, 400000), np.degrees(np.arcsin(rng.uniform(-1, 1, 400000)))
        counts = np.bincount(cells.of(ra, dec), minlength=cells.count)
        expected = 400000 * cells.areas / 41252.96
        self.assertLess(np.abs((counts - expected) / np.sqrt(expected)).max(), 6)

    def test_borders_of_cells(self):
        cells = pictures.Cells(90)      # two rings, of three cells each
        self.assertEqual(cells.across.tolist(), [3, 3])
        places = np.array([(0, -90), (119.9, -1), (120, -1), (359.9, -1), (360, -1), (0, 0), (240, 90)], float)
        self.assertEqual(cells.of(*places.T).tolist(), [0, 0, 1, 2, 0, 3, 5])

    def test_the_extent_of_a_field(self):
        for ra, middle, half in (([10, 20, 14], 15, 5), ([350, 10, 5], 0, 10), ([7], 7, 0)):
            found = pictures.extent(np.array(ra, float))
            self.assertAlmostEqual((found[0] - middle + 180) % 360 - 180, 0)
            self.assertAlmostEqual(found[1], half)


@unittest.skipUnless(HAS, "python3-matplotlib is not here")
class Drawn(support.WithFolder):
    @classmethod
    def setUpClass(cls):
        programs.use()
        keeper = support.WithFolder()
        keeper.setUp()
        cls.addClassCleanup(keeper.doCleanups)
        cls.made = keeper.path
        for name, text in (("f", FIELD), ("none", "id,ra,dec\n")):
            with open(keeper.path(f"{name}.csv"), "w", encoding="utf-8") as file:
                file.write(text)
            done = support.skyq_here("ingest", keeper.path(f"{name}.csv"), keeper.path(name), "--degrees")
            assert done.returncode == 0, done.stderr

    def drawn(self, *words):
        """Draws a picture; what is printed, without the file's name."""
        path = self.path("x.png")
        done = support.skyq_here("plot", self.made("f"), *words, "-o", path)
        self.assertEqual((done.returncode, done.stderr), (0, ""))
        with open(path, "rb") as file:
            self.assertTrue(file.read().startswith(b"\x89PNG"))
        self.assertEqual(os.listdir(self.folder), ["x.png"])
        return done.stdout.removeprefix(f"{path}: ")

    def counts(self):
        """The rows of each chunk of the field."""
        partition = Partition.load(self.made("f", "sky.txt"))
        rows = [line.split(",") for line in FIELD.splitlines()[1:]]
        chunk, _ = partition.place(*grid.to_grid([float(row[1]) for row in rows], [float(row[2]) for row in rows]))
        return np.bincount(chunk, minlength=partition.chunks)

    def test_chunks_and_density(self):
        counts = self.counts()
        filled = counts[counts > 0]
        self.assertEqual(self.drawn("chunks"), f"12 rows in {len(filled)} of {len(counts)} chunks, {filled.min()} to {filled.max()} rows a chunk, overlap 60 arcsec\n")
        self.assertRegex(self.drawn("density"), r"^12 rows, in cells of [0-9.]+ square degrees\n$")

    def test_one_chunk(self):
        counts = self.counts()
        number = int(np.flatnonzero(counts)[0])
        self.assertRegex(self.drawn("chunk", "--chunk", number), f"^chunk {number}: {counts[number]} rows in [0-9]+ by [0-9]+ subchunks, [0-9]+ rows in its overlap\n$")
        self.assertRegex(self.drawn("chunk"), "^chunk ")

    def test_separations(self):
        # 1 and 2, 2 and 3 are 18 arcsec apart, 11 and 12 are 9, and 1 and 3 are 36
        for radius, pairs in (("10arcsec", 1), ("20arcsec", 3), ("40arcsec", 4), (None, 4)):
            told = self.drawn("separations", *(["--radius", radius] if radius else []))
            self.assertRegex(told, f"^{pairs} pairs within {int((radius or '60').removesuffix('arcsec'))} arcsec; 12 rows at random on ")

    def test_the_histogram_and_what_is_expected(self):
        with mock.patch("skyq_lib.plot.area_with_rows", lambda ra, dec: 4.0), mock.patch("skyq_lib.plot.BINS", 2), mock.patch.object(pictures, "histogram") as drawn:
            plot.separations(columns.Catalogue.load(self.made("f")), mock.Mock(radius="36.5arcsec"))
        apart, edges, expected, _ = drawn.call_args[0]
        self.assertEqual((np.round(np.sort(apart), 6).tolist(), edges.tolist()), ([9, 18, 18, 36], [0, 18.25, 36.5]))
        # 66 pairs of 12 rows, times the part of 4 square degrees that the circle and the ring have
        circle = np.pi * (18.25 / 3600) ** 2
        self.assertTrue(np.allclose(expected, [66 * circle / 4, 66 * 3 * circle / 4]))

    def test_what_is_refused(self):
        f, x = self.made("f"), self.path("x.png")
        empty = int(np.flatnonzero(self.counts() == 0)[0]) if (self.counts() == 0).any() else 99999
        cases = [
            ((f, "chunks", "-o", self.path("x.jpeg2")), f"{self.path('x.jpeg2')}: the ending is none of .png, .pdf, .svg"),
            ((f, "chunk", "--chunk", empty, "-o", x), f"chunk {empty} has no rows; the chunks are 0 to {len(self.counts()) - 1}"),
            ((f, "chunk", "--chunk", "-1", "-o", x), f"chunk -1 has no rows; the chunks are 0 to {len(self.counts()) - 1}"),
            ((f, "separations", "--radius", "180arcsec", "-o", x),
             "pairs within 180 arcsec reach past the overlap of this catalogue, 60 arcsec: ingest it with --overlap 180arcsec"),
            ((f, "separations", "--radius", "3", "-o", x), "3 has no unit of angle: write it as 3arcsec, 3arcmin or 3deg"),
            ((self.made("none"), "density", "-o", x), f"{self.made('none')}: the catalogue has no rows to draw"),
        ]
        for words, line in cases:
            self.assertRefused(support.skyq_here("plot", *words), f"skyq plot: {line}")
        done = support.skyq_here("plot", f, "chunks", "-o", self.path("no", "x.png"))
        self.assertEqual((done.returncode, done.stderr.count("\n")), (2, 1))
        with mock.patch.dict("sys.modules", {"matplotlib": None}):
            self.assertRefused(support.skyq_here("plot", f, "chunks", "-o", x), "skyq plot: a picture needs matplotlib: apt-get install python3-matplotlib")
        self.assertEqual(os.listdir(self.folder), [])


if __name__ == "__main__":
    unittest.main()
