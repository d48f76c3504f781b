"""The commands query, cone, pairs and read: what they print and write, and what each failure of the program is told as."""
import os
import stat
import subprocess
import sys
import time

import numpy as np
from astropy.table import Table

import programs
import support

IS_REAL = programs.use()

# Four stars: two are 10 arcsec apart, one is a degree from the first, one is at the south pole. The third has no magnitude.
ROWS = """id,ra,dec,mag,sp
1,10.0,20.0,5.25,G2
2,10.0,20.002777777777778,7.5,K0
3,10.0,21.0,,G2
4,0.0,-90.0,-1.5,
"""


class Commands(support.WithFolder):
    def setUp(self):
        super().setUp()
        with open(self.path("stars.csv"), "w", encoding="utf-8") as file:
            file.write(ROWS)
        done = programs.skyq("ingest", self.path("stars.csv"), self.path("stars"))
        self.assertEqual(done.returncode, 0, done.stderr)

    def printed(self, command, *words):
        done = programs.skyq(command, *words)
        self.assertEqual((done.returncode, done.stderr), (0, ""))
        return done.stdout.splitlines()

    def refused(self, command, *words, program=None):
        done = programs.skyq(command, *words, program=program)
        self.assertEqual((done.returncode, done.stdout), (2, ""))
        self.assertEqual(done.stderr.count("\n"), 1)
        return done.stderr.rstrip("\n")

    # -- answers

    def test_a_query_in_a_pipe_is_csv(self):
        lines = self.printed("query", self.path("stars"), "SELECT id, mag, sp FROM Object ORDER BY mag DESC")
        self.assertEqual(lines, ["id,mag,sp", "2,7.5,K0", "1,5.25,G2", "4,-1.5,", "3,,G2"])

    def test_positions_come_back_from_the_grid_to_seven_decimals(self):
        lines = self.printed("query", self.path("stars"), "SELECT ra, dec FROM Object WHERE id<=3")
        self.assertEqual(lines[0], "ra,dec")
        for line, want in zip(lines[1:], [(10, 20), (10, 20.0027778), (10, 21)], strict=True):
            for cell, degrees in zip(line.split(","), want):
                self.assertLess(len(cell.partition(".")[2]), 8)
                self.assertAlmostEqual(float(cell), degrees, delta=2.5e-7)

    def test_a_cone_has_the_nearest_first_with_its_separation(self):
        lines = self.printed("cone", self.path("stars"), "10", "20", "2deg")
        self.assertEqual(lines[0], "id,ra,dec,mag,sp,separation")
        self.assertEqual([line.split(",")[0] for line in lines[1:]], ["1", "2", "3"])
        self.assertEqual([round(float(line.split(",")[-1]), 2) for line in lines[1:]], [0, 10, 3600])
        self.assertEqual(len(self.printed("cone", self.path("stars"), "0h40m", "20d00m", "9.9arcsec")), 2)
        self.assertEqual(len(self.printed("cone", self.path("stars"), "0:40:00", "20:00:00", "11arcsec", "--where", "mag>6 OR mag<5")), 2)
        self.assertEqual(len(self.printed("cone", self.path("stars"), "200", "-89", "61arcmin")), 2)

    def test_pairs(self):
        lines = self.printed("pairs", self.path("stars"), "60arcsec")
        self.assertEqual(lines[0], "a_id,a_ra,a_dec,a_mag,a_sp,b_id,b_ra,b_dec,b_mag,b_sp,separation")
        self.assertEqual(len(lines), 2)
        cells = lines[1].split(",")
        self.assertEqual((cells[0], cells[5], round(float(cells[-1]), 2)), ("1", "2", 10.0))
        self.assertEqual(len(self.printed("pairs", self.path("stars"), "60arcsec", "--where", "a.mag>b.mag")), 1)

    def test_each_format_of_a_file(self):
        for ending in ("fits", "vot", "ecsv", "csv"):
            path = self.path(f"out.{ending}")
            lines = self.printed("query", self.path("stars"), "SELECT id, ra, mag, sp FROM Object", "-o", path)
            self.assertRegex(lines[0], rf"^{path}: 4 rows, \d+ chunks? scanned$")
            table = Table.read(path, **({"format": "votable"} if ending == "vot" else {}))
            self.assertEqual(np.asarray(table["id"]).tolist(), [1, 2, 3, 4])
            self.assertEqual([None if np.ma.is_masked(m) or np.isnan(m) else float(m) for m in table["mag"]], [5.25, 7.5, None, -1.5])
            self.assertEqual([str(w).strip() for w in table["sp"][:3]], ["G2", "K0", "G2"])

    def test_show_prints_the_engines_query_and_asks_nothing(self):
        done = programs.skyq("query", self.path("stars"), "SELECT id FROM Object WHERE mag<5.5", "--show", program="/bin/false")
        self.assertEqual((done.returncode, done.stdout), (0, "SELECT objectId FROM Object WHERE mag<550\n"))

    def test_columns_that_are_called_as_others_are(self):
        """Names of the engine, of ADQL and of skyq itself; of two that differ in their case alone, which FITS does not tell apart."""
        with open(self.path("odd.csv"), "w", encoding="utf-8") as file:
            file.write("id,ra,dec,x,min,separation,Flux,flux,select,is good\n7,10,20,1,2,3,4,5,6,0\n8,10,20.001,11,12,13,14,15,16,1\n")
        self.assertEqual(programs.skyq("ingest", self.path("odd.csv"), self.path("odd")).returncode, 0)
        self.assertEqual(self.printed("query", self.path("odd"), 'SELECT x, min, "Flux", "flux", "select", "is good" FROM Object ORDER BY separation DESC'),
                         ["x,min,Flux,flux_2,select,is good", "11,12,14,15,16,1", "1,2,4,5,6,0"])
        self.assertEqual(self.printed("query", self.path("odd"), 'SELECT id FROM Object WHERE "is good" = TRUE AND x>1'), ["id", "8"])
        lines = self.printed("cone", self.path("odd"), "10", "20", "1deg")
        self.assertEqual([name for name in lines[0].split(",") if name.startswith("separation")], ["separation", "separation_2"])
        self.assertEqual([(line.split(",")[0], round(float(line.split(",")[-1]), 2)) for line in lines[1:]], [("7", 0.0), ("8", 3.6)])
        self.assertEqual(len(self.printed("pairs", self.path("odd"), "5arcsec", "--where", "a.min<b.min")), 2)

    def test_a_column_that_is_called_as_the_kept_degrees_are(self):
        with open(self.path("kept.csv"), "w", encoding="utf-8") as file:
            file.write("id,ra,dec,ra_deg,dec_deg,g-r,g_r\n1,10.5,20.25,7,8,1,2\n2,10.5,20.5,9,11,3,4\n")
        self.assertEqual(programs.skyq("ingest", self.path("kept.csv"), self.path("kept"), "--degrees").returncode, 0)
        self.assertEqual(self.printed("query", self.path("kept"), 'SELECT ra, dec, ra_deg, dec_deg, "g-r", g_r FROM Object WHERE ra_deg>8 AND g_r=4 AND dec<21'),
                         ["ra,dec,ra_deg,dec_deg,g-r,g_r", "10.5,20.5,9,11,3,4"])
        self.assertEqual(self.printed("query", self.path("kept"), "SELECT * FROM Object WHERE id=1"), ["id,ra,dec,ra_deg,dec_deg,g-r,g_r", "1,10.5,20.25,7,8,1,2"])
        self.assertEqual(self.printed("cone", self.path("kept"), "10.5", "20.25", "1arcmin", "--exact"),
                         ["id,ra,dec,ra_deg,dec_deg,g-r,g_r,separation", "1,10.5,20.25,7,8,1,2,0.0"])

    def test_a_declination_may_begin_with_a_sign(self):
        for dec in ("-90", "-90:00:00", "-90d", "-89d59m", "-90.0deg"):
            lines = self.printed("cone", self.path("stars"), "10", dec, "2arcmin", "--where", "mag<0")
            self.assertEqual([line.split(",")[0] for line in lines], ["id", "4"], dec)
        self.assertEqual(self.refused("cone", self.path("stars"), "10", "20", "-5deg"),
                         "skyq cone: -5deg is no angle: write it as 60arcsec, 5arcmin or 1deg")

    def test_an_end_of_skyq_ends_its_program(self):
        path, words = self.program('sleep 1; echo $$ > "$0.pid"; exec sleep 60'), [sys.executable, support.LIBRARY, "query", self.path("stars"), "SELECT id FROM Object"]
        started = subprocess.Popen(words, env={**os.environ, "SKYQ_PROGRAM": path}, stdout=subprocess.PIPE, stderr=subprocess.PIPE)
        number = self.number_in(f"{path}.pid")
        started.terminate()
        self.assertEqual((started.communicate(timeout=60), started.returncode), ((b"", b""), 143))
        with self.assertRaises(ProcessLookupError):
            os.kill(number, 0)

    def number_in(self, path):
        """The number that a file holds once it is written."""
        for _ in range(600):
            if os.path.exists(path):
                with open(path, encoding="ascii") as file:
                    text = file.read()
                if text.endswith("\n"):
                    return int(text)
            time.sleep(0.1)
        raise AssertionError(f"nothing was written to {path}")

    def test_a_query_from_standard_input(self):
        done = programs.skyq("query", self.path("stars"), "-", stdin="SELECT COUNT(*) AS n\nFROM Object -- all\n")
        self.assertEqual((done.returncode, done.stdout), (0, "n\n4\n"))

    # -- refusals

    def test_the_overlap_is_told_in_arc_seconds(self):
        line = self.refused("pairs", self.path("stars"), "3arcmin")
        self.assertEqual(line, "skyq pairs: pairs within 180 arcsec reach past the overlap of this catalogue, 60 arcsec: ingest it with --overlap 180arcsec")

    def test_faulty_words(self):
        stars = self.path("stars")
        for words, want in [
            (("query", stars, "SELECT nope FROM Object"), "skyq query: there is no column nope; the columns are id, ra, dec, mag, sp"),
            (("query", self.path(), "SELECT id FROM Object"), f"skyq query: {self.path()}: no catalogue folder: columns.json is missing; skyq ingest makes one"),
            (("query", stars, "SELECT id FROM Object", "-o", "x.pdf"), "skyq query: x.pdf: the ending is none of .fits, .fit, .fits.gz, .vot, .vot.gz, .xml, .ecsv, .csv"),
            (("query", stars, "SELECT id FROM Object", "-o", self.path("none", "x.csv")), f"skyq query: {self.path('none', 'x.csv')}: No such file or directory"),
            (("query", stars, "SELECT id FROM Object", "--workers", "17"), "skyq query: --workers is 0 to 16"),
            (("cone", stars, "10", "20", "5"), "skyq cone: 5 has no unit of angle: write it as 5arcsec, 5arcmin or 5deg"),
            (("cone", stars, "ten", "20", "5deg"), "skyq cone: ten is no coordinate: write degrees, as 161.265, or 10h45m03.6s or -59d41m04s"),
            (("cone", stars, "10", "91", "5deg"), "skyq cone: the declination 91 is outside -90 to 90"),
            (("cone", stars, "nan", "9", "5deg"), "skyq cone: nan is no coordinate: write degrees, as 161.265, or 10h45m03.6s or -59d41m04s"),
            (("cone", stars, "10", "20", "181deg"), "skyq cone: the radius 181deg is more than 180deg"),
            (("cone", stars, "10", "20", "5deg", "--exact"), "skyq cone: --exact decides on the degrees, which this catalogue does not keep: ingest it with --degrees"),
            (("pairs", stars, "5arcsec", "--where", "a.mag <"), "skyq pairs: the query cannot be read at its end: a value is missing"),
            (("pairs", stars, "5arcsec", "--where", "a.mag < 1) OR (1=1"), "skyq pairs: the query cannot be read at ')', character 10: the query has ended before it"),
        ]:
            with self.subTest(words[1:]):
                self.assertEqual(self.refused(*words), want)

    def program(self, text):
        """A program that does what a line of sh says."""
        path = self.path("program")
        with open(path, "w", encoding="utf-8") as file:
            file.write(f"#!/bin/sh\n{text}\n")
        os.chmod(path, os.stat(path).st_mode | stat.S_IXUSR)
        return path

    def test_each_way_in_which_the_program_may_end(self):
        folder = "the catalogue folder is not as skyq ingest makes it"
        for text, want in [
            ("echo 'usage: qserv load SKY CSV' >&2; exit 2", f"the program does not know its words; is {self.path('program')} the right one?"),
            ("echo 'sky line 2: order' >&2; exit 3", f"{folder} (sky line 2: order); ingest the table again"),
            ("echo 'catalogue row 7: length' >&2; exit 4", f"{folder} (catalogue row 7: length); ingest the table again"),
            ("echo 'script line 1: too long' >&2; exit 5", "the program failed: script line 1: too long"),
            ("echo 'x: too long' >&2; exit 6", "the program failed: x: too long"),
            ("echo 'x: cannot be read' >&2; exit 7", "the program failed: x: cannot be read"),
            ("echo 'output failed' >&2; exit 8", "the program failed: output failed"),
            ("echo 'out of memory' >&2; exit 9", "the program failed: out of memory"),
            ("kill -9 $$", "the program failed: it was ended by SIGKILL"),
            ("printf 'query 1\\nobjectId\\n1\\n'", "the answer of query 1 has no last line: the transcript is cut off"),
            ("printf ''", "the program answered 0 of 1 queries"),
            ("printf 'query 1\\nout of memory\\n'", "the engine was out of memory in this query; ask for fewer rows"),
            ("printf 'query 1\\nobjectId,x\\n1,2\\n1 rows, 1 chunks\\n'", "the program answered 2 columns instead of 1"),
        ]:
            with self.subTest(text):
                line = self.refused("query", self.path("stars"), "SELECT id FROM Object", program=self.program(text))
                self.assertEqual(line, f"skyq query: {want}")

    def test_the_launchers_words_are_passed_on(self):
        done = programs.skyq("query", self.path("stars"), "SELECT id FROM Object",
                         program=self.program("echo 'qserv: crate 3 of 59: sky_io' >&2; printf 'query 1\\nobjectId\\n7\\n1 rows, 1 chunks\\n'"))
        self.assertEqual((done.returncode, done.stdout, done.stderr), (0, "id\n7\n", "qserv: crate 3 of 59: sky_io\n"))

    def test_how_far_the_launcher_is_is_no_fault(self):
        for end, want in (("kill $$", "it was ended by SIGTERM"), ("exit 1", "it ended with status 1"), ("echo 'qserv: no rt' >&2; exit 1", "qserv: no rt")):
            done = programs.skyq("query", self.path("stars"), "SELECT id FROM Object", program=self.program(f"echo 'qserv: crate 3 of 59: sky_io' >&2; {end}"))
            self.assertEqual((done.returncode, done.stderr.splitlines()[0], done.stderr.splitlines()[-1]),
                             (2, "qserv: crate 3 of 59: sky_io", f"skyq query: the program failed: {want}"))

    def test_no_program(self):
        line = self.refused("query", self.path("stars"), "SELECT id FROM Object", program=self.path("none"))
        self.assertEqual(line, f"skyq query: {self.path('none')} is no program: set SKYQ_PROGRAM to the path of qserv")

    # -- transcripts

    def transcript(self):
        path = self.path("out.txt")
        with open(path, "w", encoding="utf-8") as file:
            file.write("query 1\nobjectId,mag,sp\n1,525,0\n3,NULL,0\n2 rows, 1 chunks\nquery 2\nrefused: unknown name flx\n"
                       "query 3\nAVG(mag),SUM(mag),n\n525.5000,1051,2\n1 rows, 1 chunks\n")
        return path

    def test_a_transcript_is_printed_answer_by_answer(self):
        self.assertEqual(self.printed("read", self.transcript()),
                         ["query 1", "objectId,mag,sp", "1,525,0", "3,,0", "query 2: refused: unknown name flx", "query 3", "AVG(mag),SUM(mag),n", "525.5,1051,2"])

    def test_with_the_folder_columns_have_their_scales_and_words(self):
        self.assertEqual(self.printed("read", self.transcript(), "--folder", self.path("stars"), "--query", "1"),
                         ["query 1", "objectId,mag,sp", "1,5.25,G2", "3,,G2"])
        self.assertEqual(self.printed("read", self.transcript(), "--folder", self.path("stars"), "--query", "3")[1:], ["AVG(mag),SUM(mag),n", "5.255,10.51,2"])

    def test_one_answer_goes_to_a_file(self):
        path = self.path("one.ecsv")
        self.assertEqual(self.printed("read", self.transcript(), "--query", "1", "-o", path), [f"{path}: 2 rows, 1 chunk scanned"])
        self.assertEqual(np.asarray(Table.read(path)["objectId"]).tolist(), [1, 3])
        self.assertEqual(self.refused("read", self.transcript(), "-o", path), "skyq read: 2 queries are answered, and a file holds one table: choose it with --query K")
        self.assertEqual(self.refused("read", self.transcript(), "--query", "2", "-o", path), "skyq read: query 2 has no table: refused: unknown name flx")
        self.assertEqual(self.refused("read", self.transcript(), "--query", "4"), "skyq read: the transcript has no query 4")
        self.assertEqual(self.refused("read", self.path("stars.csv")), f"skyq read: {self.path('stars.csv')}: this is no transcript: 'query 1' is missing at byte 0")
        self.assertEqual(self.refused("read", "/dev/null"), "skyq read: /dev/null: there is no query in it")
        self.assertEqual(self.refused("read", self.path("none.txt")), f"skyq read: {self.path('none.txt')}: No such file or directory")


if __name__ == "__main__":
    import unittest
    unittest.main()
