"""VOTables of a service, read back by astropy; and the bytes of one that was worked out by hand."""
import base64
import io
import unittest
import warnings

import numpy as np
from astropy.io.votable import parse
from astropy.table import MaskedColumn, Table

from skyq_lib import markup, votable


def read(data):
    """The VOTable's file as astropy reads it, without a complaint."""
    with warnings.catch_warnings():
        warnings.simplefilter("error")
        return parse(io.BytesIO(data), verify="exception")


def all_types(count=5):
    """A table with a column of each type, each with a NULL in another row."""
    rng, table = np.random.default_rng(3), Table()
    for place, kind in enumerate("b1 u1 i2 i4 i8 f4 f8".split()):
        numbers = rng.integers(0, 2 if kind == "b1" else 200, count)
        values = (numbers / 7 if kind[0] == "f" else numbers).astype(kind)
        table[kind] = MaskedColumn(values, mask=np.arange(count) == place % count)
    table["whole"] = np.arange(count, dtype="i8") - 2**62
    table["word"] = MaskedColumn(["", "G2 V", "<&>\"'", "a,b", "x"], mask=[0, 0, 0, 0, 1])
    table["far"] = MaskedColumn(["é", "", "δ Cep", "ab", "x"], mask=[0, 0, 0, 0, 1])
    table["f8"].unit, table["f8"].description = "mas / yr", "how fast <it> moves"
    return table


class ReadBack(unittest.TestCase):
    def assertSame(self, table, found):
        """astropy read what was written; it takes a text that is NULL for one that is empty."""
        self.assertEqual(found.colnames, table.colnames)
        for name in table.colnames:
            want, got = np.ma.asarray(table[name]), np.ma.asarray(found[name])
            with self.subTest(name):
                if want.dtype.kind == "U":
                    self.assertEqual([str(word) for word in got.filled("")], want.filled("").tolist())
                    continue
                self.assertEqual(np.ma.getmaskarray(got).tolist(), np.ma.getmaskarray(want).tolist())
                self.assertEqual(got.compressed().tolist(), want.compressed().tolist())

    def test_each_type_with_null(self):
        table = all_types()
        for is_binary in (True, False):
            found = read(votable.document(table, is_binary=is_binary)).get_first_table()
            self.assertSame(table, found.to_table(use_names_over_ids=True))
            types = [(field.datatype, field.arraysize) for field in found.fields]
            self.assertEqual(types, [("boolean", None), ("unsignedByte", None), ("short", None), ("int", None), ("long", None), ("float", None),
                                     ("double", None), ("long", None), ("char", "*"), ("unicodeChar", "*")])
            self.assertEqual((str(found.fields[6].unit), found.fields[6].description), ("mas / yr", "how fast <it> moves"))

    def test_numbers_alone_and_many_rows(self):
        rng = np.random.default_rng(4)
        table = Table({f"c{k}": rng.integers(-(2**50), 2**50, 3000) for k in range(11)})
        for name in table.colnames:
            table[name] = MaskedColumn(table[name], mask=rng.random(3000) < 0.3)
        self.assertSame(table, read(votable.document(table)).get_first_table().to_table(use_names_over_ids=True))

    def test_no_rows(self):
        table = all_types()[:0]
        self.assertSame(table, read(votable.document(table)).get_first_table().to_table(use_names_over_ids=True))

    def test_what_is_said_beside_the_rows(self):
        data = votable.document(Table({"n": [1]}), True, 'SELECT "a" <\x00\n é', {"n": "meta.id"})
        infos = {info.name: info.value for info in read(data).resources[0].infos}
        self.assertEqual(infos["QUERY"], 'SELECT "a" <?\n é')
        self.assertEqual(read(data).get_first_table().fields[0].ucd, "meta.id")
        behind = data[data.index(b"</TABLE>"):]
        self.assertIn(b'<INFO name="QUERY_STATUS" value="OVERFLOW"/>', behind)
        self.assertNotIn(b"OVERFLOW", votable.document(Table({"n": [1]})))

    def test_a_fault_is_a_votable(self):
        [info] = read(votable.fault_document("no <column> & \x1b[31m")).resources[0].infos
        self.assertEqual((info.name, info.value, info.content), ("QUERY_STATUS", "ERROR", "no <column> & ?[31m"))


class Bytes(unittest.TestCase):
    def test_rows_of_binary2(self):
        table = Table({"n": MaskedColumn(np.array([1, 2], "i2"), mask=[0, 1]), "w": MaskedColumn(["ab", "é"], mask=[0, 0]), "t": [True, False]})
        stream = votable.document(table).split(b'encoding="base64">')[1].split(b"<")[0]
        # a byte of flags, the highest bit that of the first column; a short; a length in characters and the characters; T or F
        self.assertEqual(base64.b64decode(stream), bytes.fromhex("00 0001 00000002 0061 0062 54" + "80 0000 00000001 00e9 46"))

    def test_floats_of_tabledata_are_their_shortest_digits(self):
        table = Table({"a": np.array([0.1, 1e30, np.nan], "f4"), "b": np.array([0.1, -0.0, 1 / 3])})
        data = votable.document(table, is_binary=False).decode()
        self.assertIn("<TR><TD>0.1</TD><TD>0.1</TD></TR>\n<TR><TD>1e+30</TD><TD>-0.0</TD></TR>\n<TR><TD>NaN</TD><TD>0.3333333333333333</TD></TR>", data)


class Words(unittest.TestCase):
    def test_what_xml_has_no_place_for(self):
        self.assertEqual(markup.text("a\x00\x0b\ud800\uffff\U0001f30c<>&\""), "a????\U0001f30c&lt;&gt;&amp;&quot;")

    def test_units(self):
        for unit, want in (("mas / yr", "mas.yr**-1"), ("deg", "deg"), (None, None), ("", None), ("furlong per week", "furlong per week")):
            self.assertEqual(votable.unit_text(unit), want)


if __name__ == "__main__":
    unittest.main()
