"""A PostgreSQL server of its own in a folder, for the scripts that measure beside it."""
import os
import re
import shutil
import subprocess


def is_here():
    """Whether initdb, pg_ctl and psql are on the PATH; if not, a line says so."""
    found = all(map(shutil.which, ("initdb", "pg_ctl", "psql")))
    if not found:
        print("PostgreSQL is skipped: there is no initdb, pg_ctl or psql here")
    return found


class Server:
    """Runs from the moment that it is made. By root it is run as the user nobody. Its tables are kept in the folder."""

    def __init__(self, folder):
        self.folder = os.path.join(folder, "postgres")
        self.base, self.who = os.path.join(self.folder, "base"), {"user": "nobody"} if os.getuid() == 0 else {}
        os.makedirs(self.folder, exist_ok=True)
        if self.who:
            shutil.chown(self.folder, "nobody")
        if not os.path.exists(self.base):
            self.call(["initdb", "-D", self.base, "-U", "bench", "--auth=trust"])
        options = f"-k {self.folder} -c listen_addresses= -c shared_buffers=1GB -c work_mem=256MB -c fsync=off"
        self.call(["pg_ctl", "-D", self.base, "-w", "-l", os.path.join(self.folder, "log"), "-o", options, "start"])

    def call(self, line):
        subprocess.run(line, cwd=self.folder, stdout=subprocess.DEVNULL, check=True, **self.who)

    def stop(self):
        self.call(["pg_ctl", "-D", self.base, "-w", "-m", "fast", "stop"])

    def ask(self, text):
        line = ["psql", "-h", self.folder, "-U", "bench", "-d", "postgres", "-qAt", "-F,", "-v", "ON_ERROR_STOP=1"]
        return subprocess.run(line, input=text, capture_output=True, text=True, check=True).stdout

    def has(self, table):
        return self.ask(f"SELECT to_regclass('{table}') IS NULL;").strip() == "f"

    def load(self, table, columns, path):
        """Makes a table of whole numbers and loads a text with a line of headings. The first column is its key."""
        self.ask(f"CREATE TABLE {table} ({','.join(column + ' bigint' for column in columns)});")
        self.ask(f"\\copy {table} FROM '{path}' CSV HEADER\n")
        self.ask(f"ALTER TABLE {table} ADD PRIMARY KEY ({columns[0]});")


def executions(text):
    """The milliseconds of each execution, of what EXPLAIN ANALYZE prints."""
    return list(map(float, re.findall(r"Execution Time: ([0-9.]+) ms", text)))
