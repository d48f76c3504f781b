"""Angles and the grid, against values by hand, exact fractions and astropy's own separations."""
import math
import unittest
from fractions import Fraction

import numpy as np
from astropy.coordinates import angular_separation

from skyq_lib import grid
from skyq_lib.errors import SkyqError


def random_positions(seed, count):
    draw = np.random.default_rng(seed)
    return draw.uniform(0, 360, count), np.degrees(np.arcsin(draw.uniform(-1, 1, count)))


def true_arcsec(ra, dec, ra2, dec2):
    return np.degrees(angular_separation(*np.radians([ra, dec, ra2, dec2]))) * 3600


class Positions(unittest.TestCase):
    def test_the_axes_are_where_the_formats_have_them(self):
        cases = [((0, 0), (2**28, 0, 0)), ((90, 0), (0, 2**28, 0)), ((180, 0), (-(2**28), 0, 0)), ((0, 90), (0, 0, 2**28)),
                 ((123, -90), (0, 0, -(2**28))), ((45, 0), (189812531, 189812531, 0)), ((0, 30), (232471924, 0, 134217728))]
        for degrees, want in cases:
            self.assertEqual(tuple(int(part) for part in grid.to_grid(*degrees)), want, degrees)

    def test_the_grid_moves_no_position_further_than_the_bound(self):
        ra, dec = random_positions(1, 200000)
        moved = true_arcsec(ra, dec, *grid.to_degrees(*grid.to_grid(ra, dec))) * 1000
        self.assertLess(moved.max(), grid.MAX_MOVE_MAS)
        self.assertGreater(moved.max(), 0.9 * grid.MAX_MOVE_MAS)
        self.assertAlmostEqual(grid.MAX_MOVE_MAS, 0.66546, places=4)

    def test_slack_covers_what_rounding_does_to_a_chord(self):
        ra, dec = random_positions(2, 100000)
        near_ra, near_dec = ra + np.random.default_rng(3).uniform(-1e-3, 1e-3, len(ra)) , np.clip(dec + 1e-4, -90, 90)
        a, b = (np.stack(grid.to_grid(*p)).astype("f8") for p in ((ra, dec), (near_ra, near_dec)))
        whole = np.sqrt(((a - b) ** 2).sum(axis=0))
        true = 2 * grid.UNIT * np.sin(np.radians(true_arcsec(ra, dec, near_ra, near_dec) / 3600) / 2)
        self.assertLess(np.abs(whole - true).max(), grid.SLACK)
        self.assertGreater(np.abs(whole - true).max(), 1.0)

    def test_separations_are_astropys_at_all_angles(self):
        ra, dec = random_positions(4, 1000)
        others = {"random": random_positions(5, 1000), "near": (ra + 1e-7, dec), "opposite": ((ra + 180) % 360, -dec + 1e-7)}
        for name, (ra2, dec2) in others.items():
            ours, theirs = grid.separation(ra, dec, ra2, dec2), true_arcsec(ra, dec, ra2, dec2)
            self.assertLess(np.abs(ours - theirs).max(), 1e-9 * 648000, name)

    def test_a_separation_takes_one_position_and_many(self):
        found = grid.separation(10.0, 0.0, np.array([10.0, 11.0, 12.0]), np.zeros(3))
        np.testing.assert_allclose(found, [0, 3600, 7200], atol=1e-6)


class Chords(unittest.TestCase):
    def test_squared_chords_are_those_of_the_formats(self):
        cases = [(1, 1693672.7), (0, 0), (648000, 2**58), (324000, 2**57)]       # 180 and 90 degrees
        for arcsec, want in cases:
            found = grid.chord2(arcsec)
            self.assertLessEqual(abs(found - want), want * 1e-15 + 1, arcsec)

    def test_a_chord_and_its_angle_go_back_and_forth(self):
        for arcsec in (0.1, 1, 60, 3600, 300000, 640000):
            self.assertAlmostEqual(grid.arcsec_of_chord2(grid.chord2(arcsec)) / arcsec, 1, delta=1 / grid.chord2(arcsec) + 1e-12)

    def test_an_overlap_allows_its_own_join_and_no_more_than_needed(self):
        for arcsec in (0, 0.1, 1, 5, 59.9, 60, 3600, 12000):
            n, overlap = grid.chord2(arcsec, grid.SLACK), grid.overlap_for(arcsec)
            self.assertLessEqual(n, overlap**2)
            self.assertGreater(n, (overlap - 1) ** 2)
            self.assertGreaterEqual(grid.overlap_arcsec(overlap), arcsec * (1 - 1e-12))
            self.assertLess(grid.overlap_arcsec(overlap), arcsec + 2 * grid.MAS_PER_UNIT / 1000)

    def test_slack_widens_by_whole_units(self):
        chord = Fraction(2 * grid.UNIT * math.sin(math.radians(60 / 3600) / 2))
        self.assertEqual(grid.chord2(60, 2), math.floor((chord + 2) ** 2))
        self.assertEqual(grid.chord2(0.001, -5), 0)

    def test_directions_and_heights(self):
        self.assertEqual([grid.direction(angle) for angle in (0, 90, 180, 270)], [(2**29, 0), (0, 2**29), (-(2**29), 0), (0, -(2**29))])
        self.assertAlmostEqual(grid.height(30), 2**27, places=5)


class Texts(unittest.TestCase):
    def test_angles_are_read_with_their_units(self):
        cases = [("60arcsec", 60), ("5arcmin", 300), ("1deg", 3600), ("10mas", 0.01), (" 1.5 arcsec ", 1.5), ("1e2arcsec", 100),
                 (".5deg", 1800), ("1rad", 206264.80624709636)]
        for text, want in cases:
            self.assertAlmostEqual(grid.arcsec_of_text(text), want, places=9, msg=text)

    def test_what_is_no_angle_is_refused(self):
        cases = [("60", "60 has no unit of angle: write it as 60arcsec, 60arcmin or 60deg"),
                 ("5parsec", "5parsec has no unit of angle: write it as 5arcsec, 5arcmin or 5deg"),
                 ("wide", "wide is no angle: write it as 60arcsec, 5arcmin or 1deg"),
                 ("-1arcsec", "-1arcsec is no angle: write it as 60arcsec, 5arcmin or 1deg"),
                 ("", " is no angle: write it as 60arcsec, 5arcmin or 1deg")]
        for text, want in cases:
            with self.assertRaises(SkyqError) as caught:
                grid.arcsec_of_text(text)
            self.assertEqual(str(caught.exception), want.strip())

    def test_angles_are_printed_rounded_down(self):
        cases = [(60, "60 arcsec"), (60.00189, "60.0018 arcsec"), (0, "0 arcsec"), (0.0013, "0.0013 arcsec"), (3600.9999, "3600.99 arcsec"),
                 (1e-6, "0.000001 arcsec"), (12896.57, "12896.5 arcsec")]
        for arcsec, want in cases:
            self.assertEqual(grid.text_of_arcsec(arcsec), want)


if __name__ == "__main__":
    unittest.main()
