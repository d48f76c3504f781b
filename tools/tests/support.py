"""What several tests want: the data, the command line, a temporary folder."""
import contextlib
import io
import os
import subprocess
import sys
import tempfile
import unittest

from skyq_lib.__main__ import main

HERE = os.path.dirname(os.path.abspath(__file__))
LIBRARY = os.path.join(os.path.dirname(HERE), "skyq_lib")
TYCHO2 = os.path.join(HERE, "data", "tycho2_cut.csv")
OPENNGC = os.path.join(HERE, "data", "openngc_cut.ecsv")


def skyq(*words, **more):
    """Runs skyq with these words; the outcome has returncode, stdout and stderr as text."""
    return subprocess.run([sys.executable, LIBRARY, *map(str, words)], capture_output=True, text=True, **more)


def skyq_here(*words):
    """Runs skyq in this process, which spares the start: the same outcome as that of skyq()."""
    out, err = io.StringIO(), io.StringIO()
    with contextlib.redirect_stdout(out), contextlib.redirect_stderr(err):
        status = main([str(word) for word in words])
    return subprocess.CompletedProcess(words, status, out.getvalue(), err.getvalue())


class WithFolder(unittest.TestCase):
    """A test with a temporary folder, self.folder."""

    def setUp(self):
        kept = tempfile.TemporaryDirectory()
        self.addCleanup(kept.cleanup)
        self.folder = kept.name

    def path(self, *names):
        return os.path.join(self.folder, *names)

    def assertRefused(self, outcome, line):
        """The outcome is status 2 and this one line on standard error, and nothing else."""
        self.assertEqual((outcome.returncode, outcome.stdout, outcome.stderr), (2, "", line + "\n"))
