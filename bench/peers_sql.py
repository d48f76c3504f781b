"""What SQLite and PostgreSQL take for each line of peers.py."""
import os
import re
import sqlite3

import peers_lines
import postgres

# of pairs, the cells are cubes sixteen times as wide as the radius; a cell's number is made of three parts of ten bits
CELL = "((x{0}+536870912>>20<<10)|(y{1}+536870912>>20)<<10)|(z{2}+536870912>>20)"
REACH = 65536


def ordered(query):
    """The query with the program's order of rows that are equal by ORDER BY."""
    return query.replace("ORDER BY n DESC", "ORDER BY n DESC,flux").replace("ORDER BY flux DESC", "ORDER BY flux DESC,objectId")


class Sqlite:
    """A table in memory, with an index of the ids alone."""

    def __init__(self, words, rows):
        self.path, self.base = os.path.join(words.folder, "object", "catalogue.csv"), self.made(rows)

    def made(self, rows):
        """A table with these rows."""
        base = sqlite3.connect(":memory:")
        base.execute("CREATE TABLE Object (objectId INTEGER PRIMARY KEY,x,y,z,flux INTEGER,kind)")
        base.executemany("INSERT INTO Object VALUES (?,?,?,?,?,?)", rows)
        return base

    def run(self, line):
        if line.word == "pairs":
            return None
        found, took = peers_lines.clocked(lambda: self.loaded(line) if line.word == "csv" else self.told(self.base, line))
        return found if line.word == "text" else peers_lines.texts(found), took

    def told(self, base, line):
        """The answers; as text for the line of text."""
        answers = [base.execute(ordered(query)).fetchall() for query in line.queries]
        return [["%d,%d" % row for row in answers[0]]] if line.word == "text" else answers

    def loaded(self, line):
        with open(self.path, encoding="ascii") as file:
            next(file)
            return self.told(self.made(text.split(",") for text in file), line)


class Postgres:
    """With its default number of parallel workers, or with none."""

    def __init__(self, words, server, is_alone):
        self.path, self.server, self.is_alone = os.path.join(words.folder, "object", "catalogue.csv"), server, is_alone
        self.head = "SET jit=off;\n" + ("SET max_parallel_workers_per_gather=0;\n" if is_alone else "")
        if words.fifo and is_alone:
            self.head += "SELECT pg_backend_pid() AS own \\gset\n\\setenv OWN :own\n\\! chrt -f -p 1 $OWN\n"

    def queries(self, line):
        if line.word != "pairs":
            return [ordered(query).replace("AVG(flux)", "ROUND(AVG(flux),4)") for query in line.queries]
        near = f"(a.x-b.x)*(a.x-b.x)+(a.y-b.y)*(a.y-b.y)+(a.z-b.z)*(a.z-b.z)<={REACH * REACH}"
        joined = f"cells_{line.folder} a,near_{line.folder} b WHERE a.cell=b.cell"
        return [f"SELECT a.objectId,b.objectId FROM {joined} AND {near} AND a.objectId<b.objectId"]

    def run(self, line):
        """No answer, and the milliseconds."""
        if line.word == "csv":
            made = "BEGIN;\nCREATE TABLE t (objectId bigint,x bigint,y bigint,z bigint,flux bigint,kind bigint);\n"
            made += f"\\copy t FROM '{self.path}' CSV HEADER\n" + self.queries(line)[0].replace("Object", "t") + ";\nROLLBACK;\n"
            return None, peers_lines.clocked(lambda: self.server.ask(self.head + made))[1]
        if line.word == "text":
            told = self.server.ask(f"{self.head}\\timing on\nCOPY ({self.queries(line)[0]}) TO STDOUT CSV;\n")
            return None, float(re.findall(r"^Time: ([0-9.]+) ms", told, re.M)[-1])
        asked = "".join(f"EXPLAIN (ANALYZE,TIMING OFF) {query};\n" for query in self.queries(line))
        return None, sum(postgres.executions(self.server.ask(self.head + asked)))

    def answers(self, line):
        """The answers, without measuring."""
        told = self.server.ask(self.head + "".join(f"{query};\n\\echo end\n" for query in self.queries(line)))
        return [part.splitlines() for part in told.replace("end\n", "\0").split("\0")[:-1]]


def fill(server, words):
    """Loads the tables, unless the server has them. For pairs there is a table with the cell of each row, and one with each cell that
    a row is near: these are the cells of the corners of a cube around it."""
    for name in ("object", "dense"):
        if server.has(f"near_{name}"):
            continue
        server.load(name, peers_lines.NAMES, os.path.join(words.folder, name, "catalogue.csv"))
        server.ask(f"CREATE TABLE cells_{name} AS SELECT objectId,x,y,z,{CELL.format('', '', '')} AS cell FROM {name};")
        sides = ",".join(f"(VALUES (-{REACH}),({REACH})) s{axis}({axis}side)" for axis in "xyz")
        corner = CELL.format("+xside", "+yside", "+zside")
        server.ask(f"CREATE TABLE near_{name} AS SELECT DISTINCT objectId,x,y,z,{corner} AS cell FROM {name},{sides};")
    server.ask("VACUUM ANALYZE;")
