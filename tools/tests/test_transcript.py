"""Transcripts as docs/FORMATS.md has them, and those that are cut off or no transcripts at all."""
import random
import unittest

import numpy as np

from skyq_lib import transcript
from skyq_lib.errors import SkyqError

TEXT = b"""query 1
kind,objects,AVG(flux)
NULL,1,60.0000
1,3,-30.0050
2,2,NULL
3 rows, 3 chunks
query 2
refused: unknown name flx
query 3
a.objectId,b.objectId
0 rows, 0 chunks
query 4
cancelled
query 5
cancelled
7
1 rows, 1 chunks
query 6
out of memory
query 7
objectId,total,mean
9223372036854775807,-1267650600228229401496703205376,1267650600228229401496703205376.0000
1,NULL,0.0001
2 rows, 12 chunks
query 8
objectId
9223372036854775807
-9223372036854775807
NULL
3 rows, 2 chunks
"""


def lists(answer):
    """The columns of an answer as lists, None for NULL."""
    found = []
    for values in answer.columns:
        null = np.zeros(len(values.whole), bool) if values.null is None else values.null
        found.append([None if is_null else int(one) for one, is_null in zip(values.whole, null)])
    return found


class Reads(unittest.TestCase):
    def test_each_kind_of_block(self):
        found = transcript.read(TEXT)
        self.assertEqual([one.kind for one in found],
                         ["answered", "refused", "answered", "cancelled", "answered", "spent", "answered", "answered"])
        self.assertEqual([one.number for one in found], list(range(1, 9)))
        self.assertEqual(found[0].headings, ["kind", "objects", "AVG(flux)"])
        self.assertEqual(lists(found[0]), [[None, 1, 2], [1, 3, 2], [600000, -300050, None]])
        self.assertEqual([values.is_average for values in found[0].columns], [False, False, True])
        self.assertEqual((found[0].count, found[0].chunks), (3, 3))
        self.assertEqual(found[1].why, "unknown name flx")
        self.assertEqual((lists(found[2]), found[2].count, found[2].headings), ([[], []], 0, ["a.objectId", "b.objectId"]))
        self.assertEqual((found[4].headings, lists(found[4])), (["cancelled"], [[7]]))

    def test_numbers_of_more_than_64_bits_stay_whole(self):
        found = transcript.read(TEXT)[6]
        self.assertEqual(lists(found), [[2**63 - 1, 1], [-(2**100), None], [2**100 * 10000, 1]])
        self.assertEqual([values.whole.dtype.kind for values in found.columns], ["i", "O", "O"])
        self.assertEqual(lists(transcript.read(TEXT)[7]), [[2**63 - 1, -(2**63 - 1), None]])

    def test_an_empty_transcript_has_no_answers(self):
        self.assertEqual(transcript.read(b""), [])

    def test_a_transcript_that_is_cut_off_is_no_whole_one(self):
        whole = len(transcript.read(TEXT))
        for at in range(1, len(TEXT)):
            try:
                found = transcript.read(TEXT[:at])
            except SkyqError as fault:
                self.assertNotIn("\n", str(fault))
                continue
            # cut between two blocks it is the transcript of fewer queries; and behind the heading of a column that is
            # called cancelled, it is one of a query that was
            self.assertLess(len(found), whole)
            self.assertTrue(TEXT[at:].startswith(b"query") or TEXT[:at].endswith(b"query 5\ncancelled\n"), TEXT[:at][-60:])

    def test_other_texts_are_refused(self):
        for text, want in [
            (b"hello\n", "this is no transcript: 'query 1' is missing at byte 0"),
            (b"query 2\ncancelled\n", "this is no transcript: 'query 1' is missing at byte 0"),
            (b"query 1\nx\n1\n2 rows, 1 chunks\n", "query 1 tells 2 rows of 1 columns, and has others"),
            (b"query 1\nx,y\n1,2\n3\n2 rows, 1 chunks\n", "query 1 tells 2 rows of 2 columns, and has others"),
            (b"query 1\nx,y\n1,2,3,4\n2 rows, 1 chunks\n", "query 1 tells 2 rows of 2 columns, and has others"),
            (b"query 1\nx\none\n1 rows, 1 chunks\n", "the answer of query 1 has a row that is no row of numbers"),
            (b"query 1\nx\n1\n", "the answer of query 1 has no last line: the transcript is cut off"),
        ]:
            with self.subTest(text), self.assertRaises(SkyqError) as caught:
                transcript.read(text)
            self.assertEqual(str(caught.exception), want)

    def test_changed_bytes_give_an_answer_or_one_line(self):
        draw = random.Random(5)
        for _ in range(3000):
            text = bytearray(TEXT)
            for _ in range(draw.randrange(1, 4)):
                text[draw.randrange(len(text))] = draw.choice(b"0123456789,.-\nN q\xff")
            try:
                transcript.read(bytes(text))
            except SkyqError as fault:
                self.assertNotIn("\n", str(fault))


if __name__ == "__main__":
    unittest.main()
