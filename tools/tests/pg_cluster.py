"""A PostgreSQL of a test's own, in a temporary folder, reached by a socket there alone."""
import glob
import importlib.util
import os
import shutil
import subprocess
import tempfile

OWNER = "postgres"          # who runs it where the test is run by root, whom PostgreSQL refuses


def programs():
    """The folder of PostgreSQL's programs, or None."""
    found = [os.path.dirname(path) for path in sorted(glob.glob("/usr/lib/postgresql/*/bin/initdb"))]
    here = shutil.which("initdb")
    return found[-1] if found else os.path.dirname(here) if here else None


def is_there():
    return programs() is not None and importlib.util.find_spec("psycopg") is not None


class Cluster:
    """A running PostgreSQL; `dsn` reaches it. `close` ends it and removes its folder."""

    def __init__(self):
        self.folder = tempfile.mkdtemp(prefix="skyq-pg-")
        self.who = {}
        if os.geteuid() == 0:
            shutil.chown(self.folder, OWNER, OWNER)
            self.who = {"user": OWNER, "group": OWNER, "extra_groups": []}
        self.data = os.path.join(self.folder, "data")
        self.run("initdb", "-D", self.data, "-A", "trust", "-U", "skyq", "-E", "UTF8", "--locale=C", "-N")
        options = f"-k {self.folder} -c listen_addresses= -c fsync=off -c full_page_writes=off"
        self.run("pg_ctl", "-D", self.data, "-w", "-l", os.path.join(self.folder, "log"), "-o", options, "start")
        self.dsn = f"host={self.folder} user=skyq dbname=postgres"

    def run(self, program, *words):
        subprocess.run([os.path.join(programs(), program), *words], check=True, stdout=subprocess.DEVNULL, stderr=subprocess.PIPE, cwd=self.folder, **self.who)

    def close(self):
        self.run("pg_ctl", "-D", self.data, "-m", "immediate", "-w", "stop")
        shutil.rmtree(self.folder)
