"""The launcher, the bar, and what a fault of each kind becomes."""
import io
import os
import subprocess
import unittest
from unittest import mock

from support import TYCHO2, WithFolder, skyq_here

from skyq_lib import progress
from skyq_lib.errors import SkyqError, count_of, need

TOOLS = os.path.dirname(os.path.dirname(os.path.abspath(__file__)))
LAUNCHER = os.path.join(TOOLS, "skyq")


class Stream(io.StringIO):
    """A text stream that is a terminal or not."""

    def __init__(self, is_terminal):
        super().__init__()
        self.is_terminal = is_terminal

    def isatty(self):
        return self.is_terminal


class Launcher(WithFolder):
    def test_it_runs_from_any_folder_and_through_a_link(self):
        os.symlink(LAUNCHER, self.path("link"))
        os.symlink("link", self.path("again"))
        for launcher in (LAUNCHER, self.path("again")):
            outcome = subprocess.run([launcher, "--help"], capture_output=True, text=True, cwd=self.folder)
            self.assertEqual((outcome.returncode, outcome.stderr), (0, ""))
            self.assertIn("skyq ingest", outcome.stdout)

    def test_no_module_comes_from_the_callers_folder(self):
        for name in ("numpy.py", "astropy.py", "json.py", "grid.py", "argparse.py"):
            with open(self.path(name), "w", encoding="utf-8") as file:
                file.write("raise SystemExit('the wrong module')\n")
        outcome = subprocess.run([LAUNCHER, "ingest", TYCHO2, "c"], capture_output=True, text=True, cwd=self.folder)
        self.assertEqual((outcome.returncode, outcome.stderr), (0, ""))

    def test_a_python_without_astropy_is_passed_over(self):
        fake = self.path("fake")
        with open(fake, "w", encoding="utf-8") as file:
            file.write("#!/bin/sh\nexit 1\n")
        os.chmod(fake, 0o755)
        outcome = subprocess.run([LAUNCHER, "--help"], capture_output=True, text=True, env={**os.environ, "SKYQ_PYTHON": fake})
        self.assertEqual((outcome.returncode, outcome.stderr), (0, ""))

    def test_a_reader_that_goes_away_is_no_fault(self):
        outcome = subprocess.run(f"'{LAUNCHER}' --help | head -c 1; '{LAUNCHER}' ingest --help | true", shell=True, capture_output=True, text=True)
        self.assertEqual((outcome.stdout, outcome.stderr), ("u", ""))


class Faults(unittest.TestCase):
    def test_each_fault_is_one_line_and_a_status(self):
        cases = [
            (SkyqError("wrong", "t.fits", 3), "skyq plan: t.fits: row 3: wrong\n", 2), (SkyqError("two\nlines"), "skyq plan: two lines\n", 2),
            (FileNotFoundError(2, "No such file or directory", "f"), "skyq plan: f: No such file or directory\n", 2),
            (OSError(28, "No space left on device"), "skyq plan: No space left on device\n", 2), (OSError("broken"), "skyq plan: broken\n", 2),
            (KeyError("x"), "skyq plan: a fault of skyq itself, which SKYQ_TRACEBACK=1 shows: KeyError: 'x'\n", 1),
            (MemoryError(), "skyq plan: out of memory\n", 2), (KeyboardInterrupt(), "\n", 130),
        ]
        for fault, line, status in cases:
            with mock.patch("skyq_lib.plan.run", side_effect=fault):
                outcome = skyq_here("plan", "c")
            self.assertEqual((outcome.returncode, outcome.stdout, outcome.stderr), (status, "", line))

    def test_a_fault_of_skyq_itself_is_shown_where_it_is_asked_for(self):
        with mock.patch("skyq_lib.plan.run", side_effect=KeyError("x")), mock.patch.dict("os.environ", {"SKYQ_TRACEBACK": "1"}):
            outcome = skyq_here("plan", "c")
        self.assertRegex(outcome.stderr, "^Traceback (?s:.*)\nskyq plan: a fault of skyq itself")

    def test_numbers_of_things(self):
        self.assertEqual([count_of(number, noun) for number, noun in ((0, "row"), (1, "row"), (2, "row"), (1, "query"), (2, "query"))],
                         ["0 rows", "1 row", "2 rows", "1 query", "2 queries"])

    def test_a_missing_module_names_its_package(self):
        with mock.patch.dict("sys.modules", {"scipy": None, "scipy.spatial": None}), self.assertRaises(SkyqError) as caught:
            need("scipy.spatial", "skyq check")
        self.assertEqual(str(caught.exception), "skyq check needs scipy: apt-get install python3-scipy")


class Bars(unittest.TestCase):
    def drawn(self, is_terminal, seconds):
        stream, clock = Stream(is_terminal), iter(seconds)
        with mock.patch("time.monotonic", lambda: next(clock)):
            with progress.Progress("write", 200, stream) as bar:
                for _ in range(len(seconds) - 1):
                    bar.step(50)
        return stream.getvalue()

    def test_a_terminal_gets_a_bar_and_a_clean_line_after_it(self):
        text = self.drawn(True, [0, 1, 2])
        self.assertIn("write [########                      ]  25% ", text)
        self.assertIn("write [###############               ]  50% ", text)
        self.assertTrue(text.endswith(" \r"))

    def test_work_without_a_measure_is_named_while_it_lasts(self):
        for is_terminal, want in ((True, "reading t ..\r            \r"), (False, "")):
            stream = Stream(is_terminal)
            with progress.working("reading t", stream):
                self.assertEqual(stream.getvalue(), want[:12])
            self.assertEqual(stream.getvalue(), want)

    def test_a_pipe_and_short_work_get_nothing(self):
        self.assertEqual(self.drawn(False, [0, 1, 2]), "")
        self.assertEqual(self.drawn(True, [0, 0.1, 0.2]), "")


if __name__ == "__main__":
    unittest.main()
