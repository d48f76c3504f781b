"""Chunks, subchunks and what is near them, against the repository's own places, which are worked out row by row in other words."""
import os
import random
import sys
import unittest

import numpy as np

import support
from skyq_lib.errors import SkyqError
from skyq_lib.partition import Partition, Region, heading, wedge

sys.dont_write_bytecode = True
sys.path.append(os.path.join(support.HERE, "..", "..", "scripts"))
import compare_places  # noqa: E402
import random_worlds  # noqa: E402
import worked_world  # noqa: E402

WORLDS = 40


def world(seed):
    """A random world's sky plan, and its positions as arrays."""
    draw = random.Random(seed)
    text = draw.choice(random_worlds.SKIES + compare_places.SKIES)
    sky = compare_places.Sky(text)
    rows = [random_worlds.position(draw, sky) for _ in range(60)]
    return sky, Partition.of_text(text), np.array(rows, "i8").reshape(-1, 3)


def near(low, high, sides, r, row):
    """Whether a row is in or near a region, by the words of docs/FORMATS.md and squares."""
    x, y, z = (int(n) for n in row)
    if not low - r <= z <= high + r:
        return False
    if sides is None:
        return True
    (ax, ay), (bx, by) = sides
    first, second = ax * y - ay * x, bx * y - by * x
    return (first >= 0 or first**2 <= r * r * (ax * ax + ay * ay)) and (second < 0 or second**2 <= r * r * (bx * bx + by * by))


class Places(unittest.TestCase):
    def test_random_worlds(self):
        for seed in range(WORLDS):
            sky, partition, rows = world(seed)
            chunk, sub = partition.place(*rows.T)
            with self.subTest(seed):
                self.assertEqual(list(zip(chunk.tolist(), sub.tolist())), [sky.place(tuple(row))[:2] for row in rows.tolist()])

    def test_the_worked_world(self):
        partition, rows = Partition.of_text(worked_world.SKY), np.array(worked_world.ROWS, "i8")
        chunk, _ = partition.place(*rows[:, 1:4].T)
        want = [sum(worked_world.holds(one, row) for row in worked_world.ROWS) for one in worked_world.CHUNKS]
        self.assertEqual(np.bincount(chunk, minlength=len(want)).tolist(), want)
        for number, own, overlap in partition.near_chunks(chunk, *rows[:, 1:4].T):
            one = worked_world.CHUNKS[number]
            held = [k for k, row in enumerate(worked_world.ROWS) if worked_world.holds(one, row)]
            beside = [k for k, row in enumerate(worked_world.ROWS) if worked_world.is_near(one, row) and k not in held]
            self.assertEqual((own.tolist(), overlap.tolist()), (held, beside))

    def test_what_is_near(self):
        count = 0
        for seed in range(WORLDS):
            sky, partition, rows = world(seed)
            chunk, _ = partition.place(*rows.T)
            near_to = [sky.place(tuple(row))[2] for row in rows.tolist()]
            found = list(partition.near_chunks(chunk, *rows.T))
            self.assertEqual([number for number, _, _ in found], np.unique(chunk).tolist())
            for number, own, overlap in found:
                beside = [k for k, chunks in enumerate(near_to) if number in chunks]
                with self.subTest(seed, chunk=number):
                    self.assertEqual((own.tolist(), overlap.tolist()), (np.flatnonzero(chunk == number).tolist(), beside))
                count += len(beside)
                self.check_subs(partition, number, rows[np.concatenate([own, overlap])])
        self.assertGreater(count, 1000)

    def check_subs(self, partition, chunk, rows):
        stripe = partition.stripe_of(chunk)
        if stripe.columns * stripe.rows > 12:
            return
        places, subs = partition.near_subs(chunk, *rows.T)
        got, want = set(zip(places.tolist(), subs.tolist())), set()
        for sub in range(stripe.columns * stripe.rows):
            part = partition.sub_region(chunk, sub)
            want |= {(k, sub) for k, row in enumerate(rows) if near(part.low, part.high, part.sides, stripe.overlap, row)}
        self.assertEqual(got, want)
        own, sub = partition.place(*rows.T)
        self.assertTrue(all((k, int(sub[k])) in got for k in range(len(rows)) if own[k] == chunk))

    def test_many_rows_on_a_sphere(self):
        rng = np.random.default_rng(5)
        v = rng.normal(size=(20000, 3))
        x, y, z = np.rint(2**28 * v / np.linalg.norm(v, axis=1)[:, None]).astype("i8").T
        partition = Partition.of_text("overlap 3000000\nstripe -268435472 3 4 4\nstripe -200000000 12 4 4\nstripe 0 40 1 1\nstripe 250000000 1 3 1\n")
        chunk, _ = partition.place(x, y, z)
        for number, own, overlap in partition.near_chunks(chunk, x, y, z):
            region = partition.region(number)
            want = region.is_near(3000000, x, y, z) & (chunk != number)
            self.assertEqual((own.tolist(), overlap.tolist()), (np.flatnonzero(chunk == number).tolist(), np.flatnonzero(want).tolist()))


class Directions(unittest.TestCase):
    def test_eight_wedges_begin_at_the_axes_and_diagonals(self):
        self.assertEqual([heading(8, k) for k in range(9)], [(8, 0), (8, 8), (0, 8), (-8, 8), (-8, 0), (-8, -8), (0, -8), (8, -8), (8, 0)])
        x, y = np.array([5, 5, 0, -5, -5, -5, 0, 5, 0, 5, 4]), np.array([0, 5, 5, 5, 0, -5, -5, -5, 0, 4, 5])
        self.assertEqual(wedge(8, x, y).tolist(), [0, 1, 2, 3, 4, 5, 6, 7, 0, 0, 1])

    def test_a_region_that_goes_round_has_heights_alone(self):
        z = np.array([-4, -3, 0, 9, 12, 13])
        self.assertEqual(Region(0, 9, None).is_near(3, z, z, z).tolist(), [False, True, True, True, True, False])

    def test_a_file_that_is_no_plan(self):
        for text in ("", "overlap 3\nstripe x\n", "overlap\nstripe 1 2 3 4\n"):
            self.assertRaises((SkyqError, ValueError, IndexError, TypeError), Partition.of_text, text)


if __name__ == "__main__":
    unittest.main()
