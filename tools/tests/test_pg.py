"""Chunk queries and merges in PostgreSQL: the answers over random worlds are those that the repository's own flat reader finds."""
import collections
import os
import random
import sys
import unittest
from unittest import mock

import pg_cluster
import programs
import support
from skyq_lib import engine, pg, pg_load, transcript
from skyq_lib.columns import Catalogue
from skyq_lib.pg_chunk import ChunkQuery
from skyq_lib.pg_merge import Merge
from skyq_lib.pg_text import quoted

sys.dont_write_bytecode = True
sys.path.append(os.path.join(support.HERE, "..", "..", "scripts"))
import compare_answers  # noqa: E402
import flat_answers  # noqa: E402
import random_worlds  # noqa: E402

WORLDS, QUERIES, ROWS = 8, 40, 250


class Texts(unittest.TestCase):
    """What is written anew, each by a query of few words."""

    def chunk(self, text):
        return ChunkQuery(text).sql("own", "near", '"#sub"')

    def merge(self, text, chunk="SELECT COUNT(*),SUM(flux),COUNT(flux) FROM Object_c"):
        return Merge(text, ChunkQuery(chunk), "pieces").sql

    def test_items_are_called_as_the_order_calls_them(self):
        self.assertEqual(self.chunk("SELECT objectId,flux FROM Object_c ORDER BY c2 DESC,c1 LIMIT 3"),
                         'SELECT t1."objectId" AS c1, t1."flux" AS c2 FROM own AS t1 ORDER BY c2 DESC NULLS LAST, c1 ASC NULLS FIRST LIMIT 3')

    def test_names_are_kept_and_tables_get_ours(self):
        self.assertEqual(self.chunk("SELECT Object.End,user FROM Object_c"), 'SELECT t1."End" AS c1, t1."user" AS c2 FROM own AS t1')
        self.assertEqual(self.chunk("SELECT a.x,A.x FROM Object_c_s a,Object_c_s_near A"),
                         'SELECT t1."x" AS c1, t2."x" AS c2 FROM own AS t1, near AS t2 WHERE t1."#sub" = t2."#sub"')

    def test_a_limit_of_a_distance_is_also_one_of_heights(self):
        cases = [("(a,b)<=8", "12", "<= 8", 2), ("(b,a)<9", "21", "< 9", 3), ("(a,b)<=0", "12", "<= 0", 0), ("(a,b)<=99999999999999999", "12", "<= 99999999999999999", 316227766)]
        for limit, (one, other), want, reach in cases:
            chord = " + ".join(f"(t{one}.{axis} - t{other}.{axis}) * (t{one}.{axis} - t{other}.{axis})" for axis in "xyz")
            self.assertEqual(self.chunk(f"SELECT a.x FROM Object_c_s a,Object_c_s_near b WHERE chord2{limit}"), 'SELECT t1."x" AS c1 FROM own AS t1, near AS t2'
                             f' WHERE t1."#sub" = t2."#sub" AND (((t2.z BETWEEN t1.z - {reach} AND t1.z + {reach} AND {chord} {want}::bigint)))')

    def test_arithmetic_is_numeric_where_it_may_pass_64_bits(self):
        cases = [("x*y+z", '((t1."x" * t1."y") + t1."z")'), ("flux*8191", '(t1."flux" * 8191::bigint)'), ("flux*8193", '(t1."flux"::numeric * 8193::bigint)'),
                 ("objectId+1", '(t1."objectId"::numeric + 1::bigint)'), ("-(-5)", "(- (- 5::bigint))")]
        for text, want in cases:
            self.assertEqual(self.chunk(f"SELECT {text} FROM Object_c"), f"SELECT {want} AS c1 FROM own AS t1")

    def test_averages_and_counts(self):
        self.assertEqual(self.merge("SELECT SUM(c1),SUM(c2)/SUM(c3) FROM pieces"),
                         "SELECT coalesce(SUM(c1), 0), (sign(SUM(c2)) * div(2 * abs(SUM(c2)) * 10000 + SUM(c3), nullif(2 * SUM(c3), 0)) * 0.0001) FROM pieces")


@unittest.skipUnless(pg_cluster.is_there(), "PostgreSQL or python3-psycopg is not here")
class Databases(support.WithFolder):
    @classmethod
    def setUpClass(cls):
        import psycopg

        programs.use()
        cls.clusters = [pg_cluster.Cluster(), pg_cluster.Cluster()]
        for cluster in cls.clusters:
            cls.addClassCleanup(cluster.close)
        cls.dsn, cls.other = (cluster.dsn for cluster in cls.clusters)
        cls.base = psycopg.connect(cls.dsn, autocommit=True)
        cls.addClassCleanup(cls.base.close)

    def world(self, seed):
        """A random world's catalogue folder, without a sidecar, and the world."""
        draw = random.Random(seed)
        made, texts = (random_worlds.large if seed % 4 == 0 else random_worlds.small), []
        with mock.patch.object(random_worlds, "World", lambda sky, names, rows: texts.append(sky) or World(sky, names, rows)):
            world = made(draw)
        folder = self.path(f"world{seed}")
        os.mkdir(folder)
        for name, text in (("sky.txt", texts[0]), ("catalogue.csv", world.catalogue(draw))):
            with open(os.path.join(folder, name), "w", encoding="ascii") as file:
                file.write(text)
        return Catalogue("random", len(world.rows), None, "ra", "dec", 0.0, [], folder=folder), world, draw

    def compare(self, seed, far):
        catalogue, world, draw = self.world(seed)
        pg_load.load(catalogue, self.dsn, "worlds", far)
        lines = compare_answers.queries_of(compare_answers.script_of(draw, world, QUERIES))
        lines = [line.replace("\r", " ") for line in lines if line.isascii()]
        want = transcript.read(flat_answers.transcript(world, lines).encode("latin-1"))
        tally = collections.Counter()
        for sql, one, found in zip(lines, want, pg.answers(self.base, catalogue, lines, "worlds")):
            tally[one.kind] += 1
            with self.subTest(sql, seed=seed):
                self.assertEqual((found.kind, found.why, found.count, found.chunks), (one.kind, one.why, one.count, one.chunks))
                self.assertEqual([rows_of(column) for column in found.columns], [rows_of(column) for column in one.columns])
        return tally

    def test_random_worlds(self):
        tally = sum((self.compare(seed, []) for seed in range(WORLDS)), collections.Counter())
        self.assertGreater(tally["answered"], 10 * WORLDS)

    def test_random_worlds_of_two_databases(self):
        tally = sum((self.compare(seed, [self.other]) for seed in range(4, 8)), collections.Counter())
        self.assertGreater(tally["answered"], 30)

    def test_near_rows_have_an_index_where_they_are(self):
        import psycopg

        catalogue, _, _ = self.world(5)
        pg_load.load(catalogue, self.dsn, "worlds", [self.other])
        with psycopg.connect(self.other) as other:
            for base in (self.base, other):
                names = {name for (name,) in base.execute("SELECT relname FROM pg_class WHERE relnamespace = 'worlds'::regnamespace AND relkind = 'r'")}
                found = base.execute("SELECT tablename FROM pg_indexes WHERE schemaname = 'worlds' AND indexdef LIKE '%(\"#sub\", z)'").fetchall()
                self.assertEqual({name for (name,) in found}, {name for name in names if name.startswith("object_near_")})
                self.assertTrue(found)

    def ingest(self, *words):
        """Makes the folder c of the first rows of Tycho-2's cut."""
        with open(support.TYCHO2, encoding="utf-8") as source, open(self.path("t.csv"), "w", encoding="utf-8") as file:
            file.writelines(line for line, _ in zip(source, range(ROWS + 1)))
        done = support.skyq_here("ingest", self.path("t.csv"), self.path("c"), *words)
        self.assertEqual(done.returncode, 0, done.stderr)

    def test_the_command_line(self):
        self.ingest("--degrees")
        for far in ([], ["--far", self.other]):
            done = support.skyq_here("pg", "load", self.path("c"), self.dsn, *far)
            self.assertEqual((done.returncode, done.stderr), (0, ""))
            self.assertRegex(done.stdout, rf"^skyq: {ROWS} rows(, [0-9]+ of them here and [0-9]+ far)?, in [0-9]+ chunks, and [0-9]+ rows of subchunks\n$")
            for words in (["SELECT COUNT(*),MIN(z) AS low FROM Object WHERE sweep<100"], ["SELECT COUNT(*) AS n, AVG(vtmag) AS m FROM Object WHERE dec<-89", "--adql"],
                          ["SELECT a.id, b.id FROM Object AS a JOIN Object AS b ON DISTANCE(POINT(a.ra,a.dec),POINT(b.ra,b.dec))<60/3600. WHERE a.id<b.id", "--adql"]):
                done = support.skyq_here("pg", "query", self.path("c"), self.dsn, *words)
                with self.subTest(words, far=far):
                    self.assertEqual((done.returncode, done.stderr), (0, ""))
                    self.assertEqual(done.stdout, self.by_the_engine(words))

    def by_the_engine(self, words):
        """What the program itself answers, as a table in CSV."""
        if "--adql" in words:
            return support.skyq_here("query", self.path("c"), words[0]).stdout
        with open(self.path("transcript"), "wb") as file:
            file.write(engine.run("query", self.path("c"), words[0] + "\n"))
        return support.skyq_here("read", self.path("transcript"), "--folder", self.path("c")).stdout.partition("\n")[2]

    def test_what_is_refused(self):
        self.ingest()
        self.base.execute("CREATE SCHEMA IF NOT EXISTS mine")
        ask = lambda *words: support.skyq_here("pg", *words)  # noqa: E731
        c = self.path("c")
        self.assertRefused(ask("query", c, self.dsn, "SELECT 1", "--schema", "none"),
                           f"skyq pg: the schema none has no chunk tables of skyq: skyq pg load {c} DSN makes them")
        self.assertRefused(ask("load", c, self.dsn, "--schema", "mine"), "skyq pg: the schema mine is there, and was not made by skyq: choose another with --schema")
        self.assertRefused(ask("load", c, self.dsn, "--schema", "a b"), "skyq pg: --schema is a name of letters, digits and _")
        self.assertRegex(ask("load", c, f"host={self.folder}").stderr, r"^skyq pg: PostgreSQL: connection[^\n]*\n$")
        self.assertEqual(ask("load", c, self.dsn, "--schema", "other").returncode, 0)
        self.assertRefused(ask("query", c, self.dsn, "SELECT nope FROM Object", "--schema", "other"), "skyq pg: the engine refuses it: unknown name nope")
        self.assertEqual(support.skyq_here("plan", c, "--rows", "40").returncode, 0)
        self.assertRefused(ask("query", c, self.dsn, "SELECT 1", "--schema", "other"), "skyq pg: the schema other holds the chunks of another catalogue,"
                           f" or of another sky plan: skyq pg load {c} DSN makes them")

    def test_a_total_out_of_range(self):
        catalogue, world, _ = self.world(3)
        pg_load.load(catalogue, self.dsn, "worlds", [])
        self.base.execute("SET search_path = worlds")
        for most in (2**100, 3):
            with mock.patch("skyq_lib.pg_merge.MOST_TOTAL", most):
                [found] = pg.answers(self.base, catalogue, ["SELECT SUM(z),SUM(x) FROM Object"], "worlds")
            total = sum(row[3] for row in world.rows)
            want = ("answered", "") if most > 3 else ("refused", f"total {total} out of range")
            self.assertEqual((found.kind, found.why), want)


class World(random_worlds.World):
    """A world; the name by which the test finds the class again that it puts another in place of."""


def rows_of(column):
    """The values of a column, None for NULL."""
    null = column.null if column.null is not None else [False] * len(column.whole)
    return [None if one else int(number) for number, one in zip(column.whole, null)], column.is_average and len(column.whole) > 0


if __name__ == "__main__":
    unittest.main()
