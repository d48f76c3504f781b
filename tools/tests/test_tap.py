"""The TAP service over real data: answers in each format, what is refused, TAP_SCHEMA and the documents."""
import argparse
import csv
import http.client
import io
import math
import unittest
import xml.etree.ElementTree

from astropy.io import fits

import programs
import support
from skyq_lib import tap, tap_guard
from skyq_lib.errors import SkyqError
from skyq_lib.tap_service import Limits
from tap_client import Running, status_of, votable

programs.use()
WORDS = "kind,ra,dec,id,mag\nstar,10,20,1,9.5\n,10.001,20,2,\n\"a,b <&>\",200,-80,3,1.25\nδ,0,90,4,-0.5\n"


def cut(count):
    """The first rows of the data, as dicts of texts."""
    with open(support.TYCHO2, encoding="utf-8", newline="") as file:
        return [row for row, _ in zip(csv.DictReader(file), range(count))]


class Served(support.WithFolder):
    """A service over the first 120 rows of Tycho-2's cut."""
    limits, words = None, ("--degrees",)

    @classmethod
    def setUpClass(cls):
        keeper = support.WithFolder()
        keeper.setUp()
        cls.addClassCleanup(keeper.doCleanups)
        cls.rows = cut(120)
        with open(keeper.path("t.csv"), "w", encoding="utf-8", newline="") as file:
            writer = csv.DictWriter(file, cls.rows[0])
            writer.writeheader()
            writer.writerows(cls.rows)
        with open(keeper.path("w.csv"), "w", encoding="utf-8") as file:
            file.write(WORDS)
        for name in "tw":
            done = support.skyq_here("ingest", keeper.path(f"{name}.csv"), keeper.path(name), *cls.words)
            assert done.returncode == 0, done.stderr
        cls.folder_of = keeper.path
        cls.tap = Running(keeper.path("t"), cls.limits)
        cls.addClassCleanup(cls.tap.close)


def apart(row, ra, dec):
    """The degrees between a row and a place, by the cosine rule."""
    a, b = math.radians(float(row["dec"])), math.radians(dec)
    turn = math.radians(float(row["ra"]) - ra)
    return math.degrees(math.acos(min(1.0, math.sin(a) * math.sin(b) + math.cos(a) * math.cos(b) * math.cos(turn))))


class Answers(Served):
    cone = "SELECT id, ra, dec, vtmag FROM Object WHERE 1=CONTAINS(POINT(ra,dec),CIRCLE(200.5,-89.3,0.4))"

    def wanted(self):
        """The rows of the cone, whose border no row is near."""
        assert all(abs(apart(row, 200.5, -89.3) - 0.4) > 1e-6 for row in self.rows)
        found = [row for row in self.rows if apart(row, 200.5, -89.3) < 0.4]
        assert 3 < len(found) < 100
        return sorted((int(row["id"]), float(row["ra"]), float(row["dec"]), float(row["vtmag"])) for row in found)

    def test_a_cone_in_each_format(self):
        for form in ("votable", "votable/td", "application/x-votable+xml", "text/xml", "application/x-votable+xml; serialization=TABLEDATA"):
            got = self.tap.get("/tap/sync", LANG="ADQL", QUERY=self.cone, RESPONSEFORMAT=form)
            self.assertEqual((got.status, got.headers["Content-Type"].split(";")[0]), (200, "application/x-votable+xml"))
            table = votable(got).get_first_table().to_table(use_names_over_ids=True)
            self.assertEqual(sorted(tuple(row) for row in table.filled()), self.wanted())
            self.assertEqual(status_of(got), [("OK", None)])
        got = self.tap.post("/tap/sync", LANG="ADQL-2.0", QUERY=self.cone, FORMAT="text/csv")
        self.assertEqual(got.headers["Content-Type"], "text/csv;header=present")
        rows = csv.DictReader(io.StringIO(got.body.decode()))
        self.assertEqual(sorted(tuple(float(row[name]) for name in ("id", "ra", "dec", "vtmag")) for row in rows), self.wanted())
        with fits.open(io.BytesIO(self.tap.post("/tap/sync", QUERY=self.cone, FORMAT="fits").body)) as units:
            self.assertEqual(sorted(tuple(row) for row in units[1].data), self.wanted())

    def test_units_and_ucds(self):
        fields = votable(self.tap.get("/tap/sync", LANG="ADQL", QUERY="SELECT TOP 1 * FROM Object")).get_first_table().fields
        self.assertEqual([(field.name, str(field.unit), field.ucd) for field in fields[:3]],
                         [("id", "None", "meta.id;meta.main"), ("ra", "deg", "pos.eq.ra;meta.main"), ("dec", "deg", "pos.eq.dec;meta.main")])

    def test_maxrec_and_overflow(self):
        every = "SELECT id FROM Object"
        for maxrec, rows, status in ((0, 0, "OVERFLOW"), (7, 7, "OVERFLOW"), (119, 119, "OVERFLOW"), (120, 120, None), (10**15, 120, None)):
            got = self.tap.get("/tap/sync", LANG="ADQL", QUERY=every, MAXREC=maxrec)
            table = votable(got).get_first_table()
            self.assertEqual((len(table.array), status_of(got)[1:]), (rows, [(status, None)] if status else []), maxrec)
        self.assertEqual(len(self.tap.rows("SELECT TOP 5 id FROM Object", MAXREC=50)), 5)

    def test_a_multipart_form(self):
        body = b"".join(b'--XX\r\nContent-Disposition: form-data; name="%s"\r\n\r\n%s\r\n' % pair
                        for pair in ((b"LANG", b"ADQL"), (b"QUERY", b"SELECT COUNT(*) AS n FROM Object"), (b"FORMAT", b"csv"))) + b"--XX--\r\n"
        got = self.tap.request("POST", "/tap/sync", body, {"Content-Type": "multipart/form-data; boundary=XX"})
        self.assertEqual((got.status, got.body.split()), (200, [b"n", b"120"]))

    def test_names_of_parameters_in_any_case(self):
        got = self.tap.get("/tap/sync", lang="ADQL", Query="SELECT COUNT(*) AS n FROM Object", responseFormat="csv", request="doQuery")
        self.assertEqual(got.body.split(), [b"n", b"120"])

    def test_a_connection_carries_several_requests(self):
        connection = http.client.HTTPConnection("127.0.0.1", self.tap.server.server_address[1], timeout=60)
        self.addCleanup(connection.close)
        for method, path, status in (("GET", "/tap/availability", 200), ("HEAD", "/tap/tables", 200), ("GET", "/tap/nothing", 404), ("GET", "/tap", 200)):
            connection.request(method, path)
            got = connection.getresponse()
            self.assertEqual((got.status, bool(got.read())), (status, method != "HEAD"))

    def test_an_address_of_another_machine_is_named(self):
        with self.assertRaises(SkyqError) as caught:
            tap.bound(("192.0.2.1", 8080), self.tap.service, self.tap.jobs)
        self.assertEqual(str(caught.exception), "192.0.2.1:8080: Cannot assign requested address")

    def test_it_binds_to_the_loopback_address(self):
        parser = argparse.ArgumentParser()
        tap.add_words(parser, "tap")
        self.assertEqual(parser.parse_args(["folder"]).host, "127.0.0.1")


class Refusals(Served):
    limits = Limits(seconds=20, most_rows=50, request=3000)

    def assertRefused(self, got, why, status=400):
        self.assertEqual((got.status, status_of(got), got.headers["Content-Type"]), (status, [("ERROR", why)], "application/x-votable+xml"))

    def test_requests_that_are_none(self):
        query = "SELECT id FROM Object"
        cases = [
            ({}, "QUERY is missing: the ADQL of what is asked"),
            ({"QUERY": "  "}, "QUERY is missing: the ADQL of what is asked"),
            ({"QUERY": query, "LANG": "SQL"}, "LANG is ADQL or ADQL-2.0 or ADQL-2.1, and not SQL"),
            ({"QUERY": query, "REQUEST": "getCapabilities"}, "REQUEST is doQuery"),
            ({"QUERY": query, "FORMAT": "pdf"}, "RESPONSEFORMAT is one of votable, votable/td, csv, fits"),
            ({"QUERY": query, "MAXREC": "-1"}, "MAXREC is a whole number of rows, and not -1"),
            ({"QUERY": query, "MAXREC": "many"}, "MAXREC is a whole number of rows, and not many"),
            ({"QUERY": query, "UPLOAD": "t,http://x"},
             "UPLOAD is not taken here: the engine answers queries of its own catalogue, and has no cross-match with another table"),
        ]
        for parameters, why in cases:
            for ask in (self.tap.get, self.tap.post):
                self.assertRefused(ask("/tap/sync", **parameters), why)

    def test_queries_that_are_refused_in_the_users_words(self):
        pairs = "SELECT a.id FROM Object AS a JOIN Object AS b ON DISTANCE(POINT(a.ra,a.dec),POINT(b.ra,b.dec))<{}"
        self.assertRefused(self.tap.get("/tap/sync", LANG="ADQL", QUERY=pairs.format(0.05)),
                           "pairs within 180 arcsec reach past the overlap of this catalogue, 60 arcsec: ingest it with --overlap 180arcsec")
        got = self.tap.get("/tap/sync", LANG="ADQL", QUERY="SELECT nope FROM Object")
        self.assertRegex(status_of(got)[0][1], "^there is no column nope.* id, ra, dec, vtmag, sweep")

    def test_bodies_that_are_none(self):
        form = {"Content-Type": "application/x-www-form-urlencoded"}
        self.assertRefused(self.tap.request("POST", "/tap/sync", b"QUERY=" + b"x" * 3000, form), "the request is longer than 3000 bytes", 413)
        self.assertRefused(self.tap.request("POST", "/tap/sync", b"QUERY=\xff\xfe", form),
                           "the parameters are no form: they have bytes that are no ASCII")
        self.assertEqual(self.tap.request("POST", "/tap/sync", b"QUERY=%ff%fe", form).status, 400)
        self.assertEqual(self.tap.request("POST", "/tap/sync", None, {**form, "Transfer-Encoding": "chunked"}).status, 411)
        self.assertEqual(self.tap.request("POST", "/tap/sync", None, {**form, "Content-Length": "-5"}).status, 411)
        self.assertEqual(self.tap.request("POST", "/tap/sync", b"", {"Content-Type": "multipart/form-data"}).status, 400)
        self.assertEqual(self.tap.get("/tap/sync?" + "&".join(f"p{k}=1" for k in range(300))).status, 400)

    def test_rows_are_limited_whatever_is_asked(self):
        got = self.tap.get("/tap/sync", LANG="ADQL", QUERY="SELECT id FROM Object", MAXREC=100)
        self.assertEqual((len(votable(got).get_first_table().array), status_of(got)[-1]), (50, ("OVERFLOW", None)))

    def test_paths_that_are_none(self):
        for method, path in (("GET", "/nothing"), ("GET", "/tap/x/y"), ("GET", "/tap/async/nojob"), ("POST", "/tap/async/nojob/phase"), ("GET", "/tap/sync/x")):
            self.assertEqual(self.tap.request(method, path, None if method == "GET" else "").status, 404)

    def test_methods_that_a_path_does_not_take(self):
        for method, path, allowed in (
            ("DELETE", "/tap/sync", "GET, HEAD, POST"), ("DELETE", "/tap/tables", "GET, HEAD"), ("DELETE", "/tap/async/nojob/phase", "GET, HEAD, POST"), ("POST", "/tap/tables", "GET, HEAD"),
            ("DELETE", "/tap/async", "GET, HEAD, POST"), ("PUT", "/tap/async/nojob", "GET, HEAD, POST, DELETE"), ("OPTIONS", "/tap/sync", "GET, HEAD, POST"),
        ):
            got = self.tap.request(method, path, b"")
            self.assertEqual((got.status, got.headers["Allow"]), (405, allowed), (method, path))
            self.assertRefused(got, f"{path} takes {allowed}", 405)
        got = self.tap.request("BREW", "/tap/sync", b"")
        self.assertEqual((got.status, got.headers["Content-Type"]), (501, "text/plain; charset=utf-8"))
        self.assertEqual(got.body, b"Unsupported method ('BREW')\n")

    def test_a_body_of_any_method_is_read(self):
        """The next request on the connection begins behind it."""
        connection = http.client.HTTPConnection("127.0.0.1", self.tap.server.server_address[1], timeout=60)
        self.addCleanup(connection.close)
        for method, path, status in (("GET", "/tap/availability", 200), ("DELETE", "/tap/async/nojob", 404), ("GET", "/tap/nothing", 404), ("GET", "/tap", 200)):
            connection.request(method, path, b"GET /tap/sync HTTP/1.1\r\n\r\n")
            got = connection.getresponse()
            self.assertEqual((got.status, len(got.read()) > 0), (status, True), method)
        self.assertEqual(self.tap.request("GET", "/tap", None, {"Content-Length": "3001"}).status, 413)
        self.assertEqual(self.tap.request("GET", "/tap", None, {"Transfer-Encoding": "chunked"}).status, 411)
        self.assertEqual(self.tap.request("POST", "/tap/sync", None, {"Content-Length": "7", "Transfer-Encoding": "chunked"}).status, 411)
        self.assertEqual(self.tap.request("GET", "/tap", None, {"Content-Length": "\u00b2"}).status, 411)

    def test_a_foreign_host_is_refused_on_the_loopback_address(self):
        """A web page's own name may be turned to 127.0.0.1, and its requests are then to this service."""
        for host in ("evil.example", "evil.example:8080", "127.0.0.1.evil.example", 'evil"><x>', "localhost@evil.example", ""):
            got = self.tap.request("GET", "/tap/capabilities", None, {"Host": host})
            self.assertEqual(got.status, 403, host)
            self.assertNotIn(b"evil", got.body)
        for host in ("localhost", "LocalHost:9", "127.0.0.1:8080", "127.3.2.1", "[::1]:80"):
            self.assertIn(f"http://{host}/tap".encode(), self.tap.request("GET", "/tap/capabilities", None, {"Host": host}).body)

    def test_a_page_of_another_site_changes_nothing(self):
        own = f"127.0.0.1:{self.tap.server.server_address[1]}"
        form = {"Content-Type": "application/x-www-form-urlencoded"}
        path = self.tap.job(QUERY="SELECT id FROM Object")
        for origin in ("http://evil.example", "http://[evil", "null", "http://127.0.0.1:1", f"http://{own}.evil.example", ""):
            for method, at, body in (("POST", "/tap/sync", "QUERY=SELECT+id+FROM+Object"), ("POST", path, "ACTION=DELETE"), ("DELETE", path, "")):
                self.assertRefused(self.tap.request(method, at, body, {**form, "Origin": origin}), "a page of another site asks for a change", 403)
        self.assertEqual(self.tap.get(path, ACTION="DELETE").status, 200)       # which an image of a page could ask for
        self.assertEqual(self.tap.get(path).status, 200)
        self.assertEqual(self.tap.request("DELETE", path, None, {"Origin": f"http://{own}"}).status, 303)
        self.assertEqual(self.tap.get(path).status, 404)

    def test_a_service_of_a_whole_net_answers_to_any_name(self):
        heads = {"Host": "sky.example:8080", "Origin": "http://sky.example:8080"}
        tap_guard.judge("POST", heads, ("0.0.0.0", 8080))
        with self.assertRaises(tap_guard.Fault):
            tap_guard.judge("POST", {**heads, "Origin": "http://other.example"}, ("0.0.0.0", 8080))
        with self.assertRaises(tap_guard.Fault):
            tap_guard.judge("POST", heads, ("127.0.0.1", 8080))


class Metadata(Served):
    def test_tap_schema(self):
        rows = self.tap.rows("SELECT column_name, datatype, unit, ucd FROM TAP_SCHEMA.columns WHERE table_name='Object' ORDER BY column_index")
        self.assertEqual(rows, [["id", "long", "", "meta.id;meta.main"], ["ra", "double", "deg", "pos.eq.ra;meta.main"],
                                ["dec", "double", "deg", "pos.eq.dec;meta.main"], ["vtmag", "double", "", ""], ["sweep", "long", "", ""]])
        self.assertEqual(self.tap.rows("SELECT COUNT(*) AS n FROM tap_schema.tables"), [["6"]])
        self.assertEqual(self.tap.rows("SELECT TOP 2 table_name FROM tap_schema.tables ORDER BY table_name DESC"), [["tap_schema.tables"], ["tap_schema.schemas"]])
        got = self.tap.get("/tap/sync", LANG="ADQL", QUERY="SELECT table_name FROM tap_schema.tables", MAXREC=6)
        self.assertEqual(status_of(got), [("OK", None)])
        got = self.tap.get("/tap/sync", LANG="ADQL", QUERY="SELECT table_name FROM tap_schema.tables", MAXREC=5)
        self.assertEqual(status_of(got), [("OK", None), ("OVERFLOW", None)])

    def test_a_word_is_no_table(self):
        self.assertEqual(self.tap.get("/tap/sync", LANG="ADQL", QUERY="SELECT id FROM Object WHERE sweep='tap_schema.x'").status, 400)
        self.assertFalse(self.tap.service.schema.are_asked("SELECT 'tap_schema.x' FROM Object"))

    def test_tap_schema_is_for_reading(self):
        for query in ("DROP TABLE tap_schema.tables", "ATTACH 'x' AS tap_schema.y", "SELECT 1) ; DELETE FROM tap_schema.tables; --",
                      "SELECT load_extension('tap_schema.') FROM tap_schema.tables", "SELECT randomblob(1000000000) FROM tap_schema.tables",
                      "SELECT * FROM tap_schema.tables) UNION SELECT * FROM (WITH RECURSIVE t(n) AS (SELECT 1 UNION ALL SELECT n+1 FROM t) SELECT n,n,n,n,n,n FROM t",
                      "SELECT COUNT(*) FROM tap_schema.columns a, tap_schema.columns b, tap_schema.columns c, tap_schema.columns d, tap_schema.columns e, tap_schema.columns f",
                      "SELECT * FROM tap_schema.nothing", "SELECT name FROM main.sqlite_master, tap_schema.tables"):
            got = self.tap.get("/tap/sync", LANG="ADQL", QUERY=query)
            self.assertEqual((got.status, status_of(got)[0][0]), (400, "ERROR"), query)
        self.assertEqual(self.tap.rows("SELECT COUNT(*) AS n FROM tap_schema.tables"), [["6"]])

    def test_an_answer_of_tap_schema_has_a_largest_size(self):
        def doubled(times):
            query = "SELECT description AS d FROM tap_schema.columns WHERE table_name='Object' AND column_name='id'"
            for _ in range(times):
                query = f"SELECT d||d AS d FROM ({query})"
            return query

        crossed = f"SELECT d FROM ({doubled(10)}) a, tap_schema.columns b, tap_schema.columns c"
        large, too_long = "the answer of TAP_SCHEMA is too large; ask for less of it", "the query of TAP_SCHEMA is not answered: string or blob too big"
        for query, want in ((doubled(13), too_long), (crossed, large)):
            self.assertEqual(status_of(self.tap.post("/tap/sync", LANG="ADQL", QUERY=query)), [("ERROR", want)])
        self.assertEqual([row[0] for row in self.tap.rows(doubled(10))], ["the number of the object" * 2**10])

    def test_documents(self):
        tables = xml.etree.ElementTree.fromstring(self.tap.get("/tap/tables").body)
        names = {table.find("name").text: [column.find("name").text for column in table.findall("column")] for table in tables.iter("table")}
        self.assertEqual(names["Object"], ["id", "ra", "dec", "vtmag", "sweep"])
        self.assertEqual(set(names), {"Object", *(f"tap_schema.{name}" for name in ("schemas", "tables", "columns", "keys", "key_columns"))})
        capabilities = xml.etree.ElementTree.fromstring(self.tap.get("/tap/capabilities").body)
        self.assertEqual([one.get("standardID").split("/")[-1] for one in capabilities.findall("capability")],
                         ["TAP", "VOSI#capabilities", "VOSI#tables", "VOSI#availability"])
        self.assertIn(b">true<", self.tap.get("/tap/availability").body)


class Words(Served):
    @classmethod
    def setUpClass(cls):
        super().setUpClass()
        cls.words = Running(cls.folder_of("w"))
        cls.addClassCleanup(cls.words.close)

    def test_words_and_nulls(self):
        for form in ("votable", "votable/td"):
            got = self.words.get("/tap/sync", LANG="ADQL", QUERY="SELECT id, kind, mag FROM Object ORDER BY id", FORMAT=form)
            table = votable(got).get_first_table()
            self.assertEqual([str(word) for word in table.array["kind"].filled("")], ["star", "", "a,b <&>", "δ"])
            self.assertEqual(table.array["mag"].mask.tolist(), [False, True, False, False])
            self.assertEqual(table.array["mag"].compressed().tolist(), [9.5, 1.25, -0.5])
            self.assertEqual(table.get_field_by_id_or_name("kind").datatype, "unicodeChar")
        self.assertEqual(self.words.rows("SELECT id FROM Object WHERE kind='δ'"), [["4"]])
        self.assertEqual(self.words.rows("SELECT datatype, arraysize FROM tap_schema.columns WHERE column_name='kind'"), [["unicodeChar", "*"]])


if __name__ == "__main__":
    unittest.main()
