#!/usr/bin/python3
"""Tries skyq tap with the clients that people use: pyvo and STILTS (taplint and tapquery), and times it.

    tools/clients.py FOLDER TABLE

FOLDER is a catalogue folder that `skyq ingest --degrees` made of the file TABLE; the program is found as skyq finds it. The
service runs at a free port of this machine meanwhile. Each answer is compared with what numpy finds on the degrees of
TABLE. It prints a line for each thing tried, skips what this machine lacks, and writes nothing else; status 1 if anything
differs. Needs numpy and astropy; python3-pyvo and stilts for their parts. With a million rows it takes some two minutes.
"""
import argparse
import csv
import http.client
import io
import os
import re
import shutil
import statistics
import subprocess
import sys
import threading
import time
import urllib.parse
import warnings

import numpy as np

HERE = os.path.dirname(os.path.abspath(__file__))
sys.path.insert(0, HERE)
from skyq_lib import errors, grid, tables  # noqa: E402
from skyq_lib.columns import Catalogue  # noqa: E402

AT_ONCE = 64


class Sky:
    """The table's own degrees, and cones on them."""

    def __init__(self, catalogue, table):
        self.names = [catalogue.id, catalogue.ra, catalogue.dec]
        self.ids, self.ra, self.dec = (np.asarray(table[name]) for name in self.names)
        self.v = np.stack(grid.unit_vectors(self.ra, self.dec))
        self.rng = np.random.default_rng(11)

    def cone(self, most=2.0):
        """A cone: its query, and the ids in it. No row is within the rounding bound of its border."""
        while True:
            ra, dec = round(self.rng.uniform(0, 360), 4), round(float(np.degrees(np.arcsin(self.rng.uniform(-1, 1)))), 4)
            radius = round(self.rng.uniform(0.05, most), 4)
            chords = np.linalg.norm(self.v - np.stack(grid.unit_vectors(ra, dec))[:, None], axis=0)
            reach = 2 * np.sin(np.radians(radius) / 2)
            if np.abs(chords - reach).min() > 4 / grid.UNIT:
                break
        name, a, d = self.names
        return f"SELECT {name},{a},{d} FROM Object WHERE 1=CONTAINS(POINT({a},{d}),CIRCLE({ra},{dec},{radius}))", set(self.ids[chords <= reach].tolist())


class Service:
    """A service of a folder in a process of its own."""

    def __init__(self, folder, *words):
        self.process = subprocess.Popen([os.path.join(HERE, "skyq"), "tap", folder, "--port", "0", *words], stdout=subprocess.PIPE, text=True)
        line = self.process.stdout.readline()
        if not line:
            raise SystemExit("clients: the service does not start")
        self.url = line.split()[0]
        self.address = urllib.parse.urlsplit(self.url).netloc

    def close(self):
        self.process.terminate()
        self.process.wait()

    def ask(self, query, form="csv"):
        """The bytes of a synchronous answer, over a connection of its own."""
        connection = http.client.HTTPConnection(self.address, timeout=120)
        try:
            connection.request("POST", "/tap/sync", urllib.parse.urlencode({"LANG": "ADQL", "QUERY": query, "FORMAT": form}),
                               {"Content-Type": "application/x-www-form-urlencoded"})
            got = connection.getresponse()
            body = got.read()
        finally:
            connection.close()
        if got.status != 200:
            raise SystemExit(f"clients: {query}: {body.decode()}")
        return body


def at_once(tasks):
    """Runs tasks in a thread each; the results, those that failed as faults, and the seconds in all."""
    found = [None] * len(tasks)

    def run(place):
        try:
            found[place] = tasks[place]()
        except Exception as fault:      # of a client, which is what is tried here
            found[place] = fault

    threads = [threading.Thread(target=run, args=(place,)) for place in range(len(tasks))]
    begun = time.monotonic()
    for thread in threads:
        thread.start()
    for thread in threads:
        thread.join()
    return found, time.monotonic() - begun


def timed(service, sky):
    """The latency of one cone, and of many at once; every answer is compared."""
    wrong, seconds = 0, []
    for _ in range(30):
        query, want = sky.cone(0.5)
        time.sleep(1.5)                 # a program has read the catalogue again by then
        begun = time.monotonic()
        got = service.ask(query)
        seconds.append(time.monotonic() - begun)
        wrong += ids_of_csv(got) != want
    told = f"one cone: median {statistics.median(seconds) * 1000:.0f} ms, least {min(seconds) * 1000:.0f}, most {max(seconds) * 1000:.0f}, {wrong} of 30 differ"
    print(told, flush=True)
    for count in (16, AT_ONCE):
        for _ in range(3):
            cones = [sky.cone(0.5) for _ in range(count)]
            time.sleep(4)
            got, took = at_once([lambda query=query: service.ask(query) for query, _ in cones])
            bad = sum(isinstance(one, Exception) or ids_of_csv(one) != want for one, (_, want) in zip(got, cones))
            wrong += bad
            print(f"{count} cones at once: {took:.2f} s, {bad} differ", flush=True)
    return wrong


def ids_of_csv(data):
    return {int(row[0]) for row in list(csv.reader(io.StringIO(data.decode())))[1:]}


def by_pyvo(service, sky, catalogue):
    """pyvo: sync, async, tables, maxrec, a refusal, and many clients at once."""
    try:
        import pyvo
    except ImportError:
        print("pyvo: skipped, python3-pyvo is not here")
        return 0
    warnings.simplefilter("ignore")
    tap, wrong, name = pyvo.dal.TAPService(service.url), 0, sky.names[0]

    def told(what, holds):
        nonlocal wrong
        wrong += not holds
        print(f"pyvo {what}: {'as it should be' if holds else 'DIFFERS'}", flush=True)

    query, want = sky.cone()
    told("search", set(tap.search(query).to_table()[name].tolist()) == want)
    told("run_async", set(tap.run_async(query).to_table()[name].tolist()) == want)
    job = tap.submit_job(query)
    job.run().wait(phases=["COMPLETED", "ERROR", "ABORTED"], timeout=120)
    told("submit_job", job.phase == "COMPLETED" and set(job.fetch_result().to_table()[name].tolist()) == want)
    job.delete()
    wanted = sky.names + [one.source for one in catalogue.columns if not one.name.endswith("_deg")]
    told("tables", [one.name for one in tap.tables["Object"].columns] == wanted)
    told("maxrec", len(tap.search(f"SELECT {name} FROM Object", maxrec=7).to_table()) == 7)
    try:
        tap.search("SELECT nothing FROM Object")
        told("refusal", False)
    except pyvo.dal.DALQueryError as fault:
        told(f"refusal ({str(fault)[:60]})", "no column nothing" in str(fault))
    cones = [sky.cone() for _ in range(AT_ONCE)]
    got, took = at_once([lambda query=query: pyvo.dal.TAPService(service.url).search(query).to_table() for query, _ in cones])
    bad = sum(isinstance(one, Exception) or set(one[name].tolist()) != want for one, (_, want) in zip(got, cones))
    rows, worst = 0, 0.0
    order = np.argsort(sky.ids)
    for one in got:
        if not isinstance(one, Exception) and len(one):
            places = order[np.searchsorted(sky.ids[order], np.asarray(one[name]))]
            rows += len(one)
            for column, mine in zip(sky.names[1:], (sky.ra, sky.dec)):
                worst = max(worst, float(np.abs(np.asarray(one[column]) - mine[places]).max()))
    print(f"pyvo, {AT_ONCE} clients at once: {took:.1f} s, {rows} rows, {bad} differ; right ascension and declination are back within {worst:.1e} degrees", flush=True)
    return wrong + bad


def by_stilts(service, sky):
    """STILTS: taplint, and tapquery both ways."""
    if not shutil.which("stilts"):
        print("stilts: skipped, it is not here")
        return 0
    wrong, query = 0, sky.cone()
    for words in (["sync=true"], ["sync=false"]):
        done = subprocess.run(["stilts", "tapquery", f"tapurl={service.url}", f"adql={query[0]}", "ofmt=csv", *words], capture_output=True, check=False)
        is_same = done.returncode == 0 and ids_of_csv(done.stdout) == query[1]
        wrong += not is_same
        print(f"stilts tapquery {words[0]}: {'as it should be' if is_same else 'DIFFERS ' + done.stderr.decode()[:200]}", flush=True)
    done = subprocess.run(["stilts", "taplint", f"tapurl={service.url}"], capture_output=True, text=True, check=False)
    for line in done.stdout.splitlines():
        if re.match(r"[EWF]-|Totals", line):
            print(f"stilts taplint: {line}", flush=True)
    return wrong + (" Errors: 0;" not in done.stdout)


def main():
    parser = argparse.ArgumentParser(description=__doc__, formatter_class=argparse.RawDescriptionHelpFormatter)
    parser.add_argument("folder")
    parser.add_argument("table")
    words = parser.parse_args()
    try:
        catalogue = Catalogue.load(words.folder)
        sky = Sky(catalogue, tables.read_table(words.table))
    except errors.SkyqError as fault:
        raise SystemExit(f"clients: {fault}") from None
    service = Service(words.folder)
    try:
        wrong = timed(service, sky) + by_pyvo(service, sky, catalogue) + by_stilts(service, sky)
    finally:
        service.close()
    print("0 differ" if wrong == 0 else f"{wrong} DIFFER")
    return min(wrong, 1)


if __name__ == "__main__":
    sys.exit(main())
