#!/usr/bin/python3
"""Tries skyq pg on all of Tycho-2's package: 20 queries, answered by PostgreSQL as the engine answers them.

    tools/clients_pg.py FOLDER

FOLDER is a catalogue folder that `skyq ingest` made of the table that tools/tycho2.py writes; the program is found as skyq
finds it. Two PostgreSQLs of its own run meanwhile in temporary folders; the chunks are first in one of them, and then half
of them in each (postgres_fdw). It prints a line for each query and the times, and writes nothing else; status 1 if an
answer differs. Needs numpy, astropy, python3-psycopg and postgresql, and some 2 GB of disk. It takes some ten minutes.
"""
import argparse
import os
import sys
import time

HERE = os.path.dirname(os.path.abspath(__file__))
sys.path[:0] = [HERE, os.path.join(HERE, "tests")]
import pg_cluster  # noqa: E402
from skyq_lib import engine, errors, grid, pg, pg_load  # noqa: E402
from skyq_lib.columns import Catalogue  # noqa: E402


def cap(ra, dec, arcsec):
    x, y, z = (int(part) for part in grid.to_grid(ra, dec))
    return f"area_cap({x},{y},{z},{grid.chord2(arcsec)})"


def box(west, east, south, north):
    (ax, ay), (bx, by) = grid.direction(west), grid.direction(east)
    return f"area_box({round(grid.height(south))},{round(grid.height(north))},{ax},{ay},{bx},{by})"


PAIRS = "SELECT a.objectId,b.objectId{} FROM Object a,Object b WHERE {}"
QUERIES = [
    "SELECT COUNT(*),SUM(vtmag),AVG(vtmag),MIN(z),MAX(z) FROM Object",
    "SELECT sweep,COUNT(*) AS n,AVG(vtmag),MIN(vtmag),MAX(vtmag) FROM Object GROUP BY sweep ORDER BY n DESC LIMIT 7",
    "SELECT objectId,vtmag FROM Object ORDER BY vtmag LIMIT 10",
    "SELECT objectId,vtmag FROM Object ORDER BY vtmag DESC LIMIT 10",
    f"SELECT objectId,x,y,z FROM Object WHERE {cap(266.4, -29.0, 3600)} AND vtmag<10500",
    f"SELECT COUNT(*),AVG(vtmag-sweep) FROM Object WHERE {cap(84.0, -5.0, 7200)}",
    f"SELECT objectId,vtmag FROM Object WHERE {box(350, 10, -5, 5)} AND vtmag BETWEEN 5000 AND 7000",
    "SELECT COUNT(*) FROM Object WHERE area_band(100000000,200000000) AND NOT (sweep IN (1,2,3) OR vtmag>=11000)",
    "SELECT * FROM Object WHERE objectId IN (1,17,1871011,99999999)",
    "SELECT * FROM Object WHERE objectId=424242",
    "SELECT SUM(vtmag*vtmag),SUM(x*y*z),MIN(x*y*z),MAX(x*x+y*y+z*z),AVG(x*y) FROM Object",
    "SELECT COUNT(vtmag),SUM(vtmag),AVG(vtmag) FROM Object WHERE vtmag<-5000",
    "SELECT sweep+1 AS s,COUNT(*) FROM Object WHERE vtmag<4000 GROUP BY sweep ORDER BY s DESC",
    "SELECT sweep,COUNT(*) FROM Object WHERE z>268000000 GROUP BY sweep",
    PAIRS.format("", f"chord2(a,b)<={grid.chord2(5)} AND a.objectId<b.objectId"),
    PAIRS.format(",a.vtmag-b.vtmag AS dm", f"chord2(a,b)<={grid.chord2(30)} AND a.vtmag<b.vtmag AND a.vtmag<7000 ORDER BY dm LIMIT 50"),
    PAIRS.format("", f"chord2(a,b)<={grid.chord2(60)} AND a.objectId<b.objectId"),
    PAIRS.format("", f"{cap(84.0, -5.0, 7200)} AND chord2(b,a)<{grid.chord2(60)} AND a.objectId<>b.objectId"),
    PAIRS.format(",b.vtmag", f"chord2(a,b)<={grid.chord2(20)} AND a.objectId IN (125,126,130,131,182) ORDER BY b.vtmag DESC"),
    "SELECT objectId FROM Object WHERE area_cap(0,0,268435456,0)",
]


def same(one, other):
    """Whether two Answers have the same rows."""
    if (one.kind, one.why, one.count, one.chunks, one.headings) != (other.kind, other.why, other.count, other.chunks, other.headings):
        return False
    nulls = [[column.null.tolist() if column.null is not None else None for column in answer.columns] for answer in (one, other)]
    return nulls[0] == nulls[1] and all((a.whole == b.whole).all() for a, b in zip(one.columns, other.columns))


def compared(catalogue, dsn, blocks, want, what):
    """Runs the explained queries in PostgreSQL; how many differ."""
    wrong, seconds = 0, 0.0
    with pg.connected(dsn, catalogue, "skyq") as base:
        for number, (block, sql, one) in enumerate(zip(blocks, QUERIES, want), 1):
            begun = time.monotonic()
            found = pg.run_block(base, catalogue, number, block, sql, "skyq")
            took = time.monotonic() - begun
            wrong, seconds = wrong + (not same(one, found)), seconds + took
            print(f"{what}, query {number}: {'agrees' if same(one, found) else 'DIFFERS'}, {one.count} rows, {one.chunks} chunks, {took:.1f} s", flush=True)
    print(f"{what}: {wrong} of {len(QUERIES)} differ, {seconds:.0f} s in all", flush=True)
    return wrong


def main():
    parser = argparse.ArgumentParser(description=__doc__, formatter_class=argparse.RawDescriptionHelpFormatter)
    parser.add_argument("folder")
    words = parser.parse_args()
    if not pg_cluster.is_there():
        print("clients_pg: skipped, postgresql or python3-psycopg is not here")
        return 0
    catalogue, clusters, wrong = Catalogue.load(words.folder), [], 0
    try:
        begun = time.monotonic()
        want = engine.ask(words.folder, QUERIES)
        print(f"the engine, all {len(QUERIES)} in one script: {time.monotonic() - begun:.1f} s", flush=True)
        blocks = pg.explanations(catalogue, QUERIES)
        clusters += [pg_cluster.Cluster(), pg_cluster.Cluster()]
        for what, far in (("one PostgreSQL", []), ("two PostgreSQLs", [clusters[1].dsn])):
            begun = time.monotonic()
            told = pg_load.load(catalogue, clusters[0].dsn, "skyq", far)
            print(f"{what}: {told}; loaded in {time.monotonic() - begun:.0f} s", flush=True)
            wrong += compared(catalogue, clusters[0].dsn, blocks, want, what)
    except errors.SkyqError as fault:
        raise SystemExit(f"clients_pg: {fault}") from None
    finally:
        for cluster in clusters:
            cluster.close()
    return min(wrong, 1)


if __name__ == "__main__":
    sys.exit(main())
