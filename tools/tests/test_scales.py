"""Columns to whole numbers and back, against cases by hand."""
import unittest

import numpy as np

from skyq_lib.errors import SkyqError
from skyq_lib.scales import LeftOut, encode


def encoded(values, mask=None, scale=None, notes=None):
    values = np.asarray(values)
    mask = np.zeros(len(values), bool) if mask is None else mask
    return encode("c", "c", values, mask, unit=None, description=None, places=np.arange(len(values)), scale=scale, notes=notes)


class Floats(unittest.TestCase):
    def test_the_scale_is_the_least_power_at_which_all_come_back(self):
        cases = [([1.0, 2.0], 1, [1, 2]), ([9.5, 10.0], 10, [95, 100]), ([10.869, 9.44], 1000, [10869, 9440]),
                 ([-0.001], 1000, [-1]), ([0.0], 1, [0]), ([], 1, []), ([1e-20, 3e-20], 10**20, [1, 3]), ([0.1 + 0.2], 10**15, None),
                 (np.array([9.443, 10.726], "f4"), 1000, [9443, 10726]), (np.array([0.1], "f4"), 10, [1])]
        for values, scale, want in cases:
            column, whole, mask = encoded(np.asarray(values, getattr(values, "dtype", "f8")))
            if want is not None:
                self.assertEqual((column.scale, column.exact, whole.tolist()), (scale, True, want), values)
            back = column.values(whole, mask)
            if column.exact:
                self.assertEqual(back.tolist(), np.asarray(values).tolist())

    def test_what_does_not_come_back_has_the_largest_scale_and_says_the_error(self):
        column, whole, _ = encoded([1000.0, 0.1 + 0.2, np.pi])
        self.assertEqual((column.scale, column.exact), (10**12, False))       # 1000 times 1e13 is above 2^50
        self.assertEqual(whole.tolist(), [10**15, 300000000000, 3141592653590])
        self.assertAlmostEqual(column.largest_error, 2.07e-13, delta=1e-15)     # pi is 3.14159265358979324

    def test_a_given_scale_rounds_and_says_the_error(self):
        column, whole, _ = encoded([1.25, 1e-30], scale=10)
        self.assertEqual((column.scale, column.exact, whole.tolist()), (10, False, [12, 0]))
        self.assertAlmostEqual(column.largest_error, 0.05)

    def test_a_wide_dynamic_range_is_refused_with_what_to_give(self):
        with self.assertRaises(SkyqError) as caught:
            encoded([1.0, 2.0, 1e-30])
        self.assertEqual(str(caught.exception), "row 3: column c: 1e-30 beside 2 comes back as 0 at the largest scale that fits, "
                         "100000000000000; accept that with --scale c:100000000000000, or leave the column out with --drop c")

    def test_a_value_keeps_three_digits_or_is_refused(self):
        column, whole, _ = encoded([1000.0, 1.23456e-9])
        self.assertEqual((column.scale, column.exact, whole.tolist()), (10**12, False, [10**15, 1235]))
        with self.assertRaises(SkyqError) as caught:
            encoded([1000.0, 1.23456e-10])
        self.assertIn("row 2: column c: 1.23456e-10 beside 1000 comes back as 1.23e-10 at", str(caught.exception))

    def test_what_passes_the_limit_is_refused(self):
        for values, scale, want in [([1.0, 1e30], None, "row 2: column c: 1e+30 times 1 passes 2^50; give it in another unit, or leave it out with --drop c"),
                                    ([5.0, 2.0e6], 10**12, "row 2: column c: 2000000.0 times 1000000000000 passes 2^50; give it a smaller scale, or leave it out with --drop c")]:
            with self.assertRaises(SkyqError) as caught:
                encoded(values, scale=scale)
            self.assertEqual(str(caught.exception), want)

    def test_nan_is_null_and_the_infinite_is_told(self):
        notes = []
        column, whole, mask = encoded([np.nan, 1.5, np.inf, -np.inf], notes=notes)
        self.assertEqual((mask.tolist(), whole[1], column.nulls, column.infinite), ([True, False, True, True], 15, 3, 2))
        self.assertEqual(notes, ["column c: 2 infinite values become NULL, the first in row 3"])

    def test_short_and_long_floats_are_kept_as_those_that_files_have(self):
        notes = []
        column, whole, mask = encoded(np.array([0.5, 65504, 0.25], "f2"), notes=notes)
        self.assertEqual((column.type, column.scale, whole.tolist(), column.values(whole, mask).tolist()), ("float32", 100, [50, 6550400, 25], [0.5, 65504, 0.25]))
        self.assertEqual(notes, [])
        column, whole, mask = encoded(np.array([0.5, 1.25], np.longdouble), notes=notes)
        self.assertEqual((column.type, column.values(whole, mask).tolist()), ("float64", [0.5, 1.25]))
        self.assertEqual(notes, [f"column c is kept as float64, not as {np.dtype(np.longdouble)}"])

    def test_bytes_of_either_order_are_the_same(self):
        for form in (">f4", "<f4", ">f8", "<f8"):
            column, whole, _ = encoded(np.array([0.25, 8.125], form))
            self.assertEqual((column.scale, whole.tolist(), column.type), (1000, [250, 8125], f"float{8 * int(form[2])}"))


class Others(unittest.TestCase):
    def test_whole_numbers_and_booleans_stay(self):
        for values, kind, want in [(np.array([3, -4], ">i2"), "int", [3, -4]), (np.array([True, False]), "bool", [1, 0]),
                                   (np.array([2**50, -(2**50)]), "int", [2**50, -(2**50)])]:
            column, whole, mask = encoded(values)
            self.assertEqual((column.kind, whole.tolist()), (kind, want))
            self.assertEqual(column.values(whole, mask).tolist(), values.tolist())

    def test_whole_numbers_beyond_the_limit_are_refused(self):
        for value in (2**50 + 1, -(2**50) - 1, np.uint64(2**64 - 1)):
            with self.assertRaises(SkyqError) as caught:
                encoded(np.array([1, value], np.asarray(value).dtype))
            self.assertEqual(str(caught.exception), f"row 2: column c: {value} is beyond 2^50; leave it out with --drop c")

    def test_a_masked_value_beyond_the_limit_is_null(self):
        column, whole, mask = encoded(np.array([7, 2**60]), mask=np.array([False, True]))
        self.assertEqual((whole.tolist(), mask.tolist(), column.nulls), ([7, 0], [False, True], 1))

    def test_words_are_numbered_in_their_order(self):
        for values in (np.array(["G2 ", "", "A0", "G2"]), np.array([b"G2 ", b"", b"A0", b"G2"]), np.array(["G2 ", None, b"A0", "G2"], object)):
            column, whole, mask = encoded(values)
            self.assertEqual((column.words, whole.tolist(), mask.tolist()), (["A0", "G2"], [1, 0, 0, 1], [False, True, False, False]))
            self.assertEqual(column.values(whole, mask).tolist(), ["G2", None, "A0", "G2"])
            self.assertEqual([column.number_of_word(word) for word in ("A0", "G2", "M5")], [0, 1, -1])

    def test_a_blank_before_a_word_is_of_the_word(self):
        for values in (np.array([" a", "a", "  "]), np.array([b" a", b"a ", b""])):
            column, whole, mask = encoded(values)
            self.assertEqual((column.words, whole.tolist(), mask.tolist()), ([" a", "a"], [0, 1, 0], [False, False, True]))

    def test_one_infinite_value_is_one(self):
        notes = []
        encoded([1.0, np.inf], notes=notes)
        self.assertEqual(notes, ["column c: 1 infinite value becomes NULL, the first in row 2"])

    def test_a_word_among_numbers_is_told(self):
        notes = []
        encoded(np.array(["1.5", "2.5", "n/a", "3"]), notes=notes)
        self.assertEqual(notes, ["column c is taken as words: row 3 has 'n/a' among numbers"])

    def test_what_does_not_fit_may_be_left_out(self):
        ragged = np.array([np.zeros(1), None, np.zeros(2)], object)
        for values, want in [(np.zeros((2, 2)), "column c holds arrays"), (ragged, "column c holds arrays"), (np.array([1j]), "column c has the type complex128, which the engine cannot hold"),
                             (np.array([f"w{k}" for k in range(4097)]), "column c has 4097 different words, more than 4096")]:
            with self.assertRaises(LeftOut) as caught:
                encoded(values)
            self.assertEqual(str(caught.exception), want)


if __name__ == "__main__":
    unittest.main()
