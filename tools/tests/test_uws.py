"""Asynchronous jobs over HTTP: phases, results, errors, aborts and times; the program is one whose queries take as long as they say."""
import os
import datetime
import unittest
import xml.etree.ElementTree
from unittest import mock

import support
from skyq_lib import query, uws
from skyq_lib.errors import SkyqError
from skyq_lib.tap_service import Limits
from tap_client import TAP, Running, status_of, votable
from test_pool import SLOW, Programs, is_alive, until


def plain_answer(catalogue, text, ask, maxrec=None, is_exact=False):
    """Asks the slow program for a text as it is."""
    from astropy.table import Table

    found = ask(text)
    if found.kind != "answered":
        raise SkyqError(found.why)
    return query.Result(Table({"length": found.columns[0].whole}), False, 1, text)


class Jobs(Programs):
    limits = Limits(job_seconds=80, longest=100)

    def setUp(self):
        super().setUp()
        self.addCleanup(mock.patch.stopall)
        mock.patch("skyq_lib.query.answer", plain_answer).start()
        outcome = support.skyq_here("ingest", support.TYCHO2, self.path("c"))
        self.assertEqual(outcome.returncode, 0, outcome.stderr)
        self.assertEqual(os.environ["SKYQ_PROGRAM"], SLOW)
        self.folder = self.path("c")
        self.tap = Running(self.folder, self.limits, 1)
        self.addCleanup(self.tap.close)

    def job(self, path):
        return xml.etree.ElementTree.fromstring(self.tap.get(path).body)

    def pid(self):
        """The process that runs the latest script."""
        self.assertTrue(until(lambda: self.log("script")))
        return self.log("script")[-1][0]

    def test_a_job_goes_through_its_phases(self):
        path = self.tap.job(QUERY="hold go", RUNID="mine")
        job = self.job(path)
        self.assertEqual((job.find(TAP + "phase").text, job.find(TAP + "runId").text, job.find(TAP + "executionDuration").text), ("PENDING", "mine", "80"))
        self.assertEqual({one.get("id"): one.text for one in job.find(TAP + "parameters")}, {"LANG": "ADQL", "QUERY": "hold go", "RUNID": "mine"})
        self.assertEqual(self.tap.post(path + "/phase", PHASE="RUN").status, 303)
        self.assertTrue(until(lambda: self.tap.get(path + "/phase").body == b"EXECUTING"))
        self.assertEqual(self.tap.get(path + "/results/result").status, 404)
        with open(os.path.join(self.folder, "go"), "w", encoding="ascii"):
            pass                        # lets the query end
        self.assertEqual(self.tap.phase(path), "COMPLETED")
        job = self.job(path)
        [result] = job.find(TAP + "results")
        self.assertTrue(result.get("{http://www.w3.org/1999/xlink}href").endswith(path + "/results/result"))
        moments = [job.find(TAP + name).text for name in ("creationTime", "startTime", "endTime", "destruction")]
        self.assertEqual(moments, sorted(moments))
        got = self.tap.get(path + "/results/result")
        self.assertEqual((status_of(got), votable(got).get_first_table().array["length"].tolist()), ([("OK", None)], [len("go")]))
        self.assertEqual(self.tap.get(path + "/error").status, 404)

    def test_a_job_that_is_run_at_once(self):
        path = self.tap.job(QUERY="say abcd", FORMAT="csv", PHASE="RUN")
        self.assertEqual((self.tap.phase(path), self.tap.get(path + "/results/result").body), ("COMPLETED", b"length\n4\n"))

    def test_a_job_without_an_answer_says_why(self):
        for words, why in (({"QUERY": "refuse"}, "not a query"), ({}, "QUERY is missing: the ADQL of what is asked")):
            path = self.tap.job(PHASE="RUN", **words)
            self.assertEqual(self.tap.phase(path), "ERROR")
            self.assertEqual(self.job(path).find(f"{TAP}errorSummary/{TAP}message").text, why)
            self.assertEqual(status_of(self.tap.get(path + "/error")), [("ERROR", why)])
            self.assertEqual(self.tap.get(path + "/results/result").status, 404)

    def test_an_aborted_job_ends_its_program(self):
        path = self.tap.job(QUERY="sleep 90", PHASE="RUN")
        pid = self.pid()
        self.assertTrue(is_alive(pid))
        self.tap.post(path + "/phase", PHASE="ABORT")
        self.assertEqual(self.tap.phase(path), "ABORTED")
        self.assertTrue(until(lambda: not is_alive(pid)))
        path = self.tap.job(QUERY="say ab", PHASE="RUN")
        self.assertEqual(self.tap.phase(path), "COMPLETED")

    def test_a_deleted_job_ends_its_program_and_is_gone(self):
        for end in (lambda path: self.tap.request("DELETE", path), lambda path: self.tap.post(path, ACTION="DELETE")):
            path = self.tap.job(QUERY="sleep 90", PHASE="RUN")
            count = len(self.log("script"))
            self.assertTrue(until(lambda: self.tap.get(path + "/phase").body == b"EXECUTING"))
            self.assertTrue(until(lambda: len(self.log("script")) >= max(1, count)))
            pid = self.pid()
            self.assertEqual(end(path).status, 303)
            self.assertEqual(self.tap.get(path).status, 404)
            self.assertTrue(until(lambda: not is_alive(pid)))

    def test_the_time_of_a_job(self):
        path = self.tap.job(QUERY="sleep 90")
        for word, seconds in (("7", "7"), ("1000", "100"), ("0", "100"), ("3", "3")):
            self.tap.post(path + "/executionduration", EXECUTIONDURATION=word)
            self.assertEqual(self.tap.get(path + "/executionduration").body.decode(), seconds)
        for word in ("-1", "x", "nan", "inf"):
            self.assertEqual(self.tap.post(path + "/executionduration", EXECUTIONDURATION=word).status, 400)
        self.tap.post(path + "/phase", PHASE="RUN")
        pid = self.pid()
        self.assertEqual(self.tap.phase(path), "ERROR")
        self.assertIn("took more than 3 s", self.job(path).find(f"{TAP}errorSummary/{TAP}message").text)
        self.assertTrue(until(lambda: not is_alive(pid)))

    def test_a_job_is_forgotten_when_its_time_is_over(self):
        path = self.tap.job(QUERY="say a", PHASE="RUN")
        self.assertEqual(self.tap.phase(path), "COMPLETED")
        job = self.tap.jobs.find(path.split("/")[-1])
        self.tap.post(path + "/destruction", DESTRUCTION="2999-01-01T00:00:00Z")
        self.assertEqual(job.destruction, job.created + datetime.timedelta(days=7))
        self.assertEqual(self.tap.post(path + "/destruction", DESTRUCTION="tomorrow").status, 400)
        self.tap.post(path + "/destruction", DESTRUCTION="2001-01-01T00:00:00.5Z")
        self.assertEqual(self.tap.get(path).status, 404)
        self.assertFalse(os.path.exists(job.path))

    def test_parameters_may_change_until_it_runs(self):
        path = self.tap.job(QUERY="say a")
        self.tap.post(path + "/parameters", QUERY="say abc", FORMAT="csv")
        self.tap.post(path, PHASE="RUN")
        self.assertEqual(self.tap.get(path + "/phase").body, b"PENDING")
        self.tap.post(path + "/phase", PHASE="RUN")
        self.assertEqual((self.tap.phase(path), self.tap.get(path + "/results/result").body), ("COMPLETED", b"length\n3\n"))
        self.assertEqual(self.tap.post(path + "/parameters", QUERY="say a").status, 400)
        self.assertEqual(self.tap.post(path + "/phase", PHASE="JUMP").status, 400)

    def test_the_list_of_jobs(self):
        paths = [self.tap.job(QUERY="say a"), self.tap.job(QUERY="say ab", PHASE="RUN"), self.tap.job(QUERY="say abc")]
        self.assertEqual(self.tap.phase(paths[1]), "COMPLETED")
        ids = [path.split("/")[-1] for path in paths]

        def listed(**words):
            tree = xml.etree.ElementTree.fromstring(self.tap.get("/tap/async", **words).body)
            return [(one.get("id"), one.find(TAP + "phase").text) for one in tree]

        self.assertEqual(listed(), [(ids[2], "PENDING"), (ids[1], "COMPLETED"), (ids[0], "PENDING")])
        self.assertEqual(listed(PHASE="COMPLETED"), [(ids[1], "COMPLETED")])
        self.assertEqual(listed(LAST=1), [(ids[2], "PENDING")])
        self.assertEqual(listed(AFTER="2999-01-01T00:00:00"), [])
        self.assertEqual(self.tap.get("/tap/async", LAST="x").status, 400)

    def test_the_oldest_ended_job_makes_room(self):
        with mock.patch("skyq_lib.uws.MOST_JOBS", 2):
            first, second = self.tap.job(QUERY="say a", PHASE="RUN"), self.tap.job(QUERY="say ab")
            self.assertEqual(self.tap.phase(first), "COMPLETED")
            self.tap.job(QUERY="say abc")
            self.assertEqual((self.tap.get(first).status, self.tap.get(second).status), (404, 200))
            got = self.tap.post("/tap/async", QUERY="say abcd")
            self.assertEqual((got.status, status_of(got)), (503, [("ERROR", "there are 2 jobs, and none has ended; ask again later")]))

    def test_results_have_a_size_together(self):
        first = self.tap.job(QUERY="say a", PHASE="RUN")
        self.assertEqual(self.tap.phase(first), "COMPLETED")
        size = len(self.tap.get(first + "/results/result").body)
        with mock.patch("skyq_lib.uws.MOST_BYTES", size + 10):
            second = self.tap.job(QUERY="say ab", PHASE="RUN")
            self.assertEqual(self.tap.phase(second), "COMPLETED")
        self.assertEqual((self.tap.get(first).status, self.tap.get(second).status), (404, 200))

    def test_a_result_that_cannot_be_kept_is_an_error(self):
        path = self.tap.job(QUERY="say a")
        with mock.patch.object(self.tap.jobs, "make_room", side_effect=OSError(28, "No space left on device")):
            self.tap.post(path + "/phase", PHASE="RUN")
            self.assertEqual(self.tap.phase(path), "ERROR")
        self.assertEqual(status_of(self.tap.get(path + "/error")), [("ERROR", "the result cannot be kept: No space left on device")])

    def test_moments(self):
        self.assertEqual(uws.stamp(uws.moment_of("2026-11-29T18:00:00.25Z")), "2026-11-29T18:00:00.250Z")
        self.assertEqual(uws.stamp(uws.moment_of("2026-11-29T20:00:00+02:00")), "2026-11-29T18:00:00.000Z")
        self.assertRaises(SkyqError, uws.moment_of, "soon")


if __name__ == "__main__":
    unittest.main()
