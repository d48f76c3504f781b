#!/usr/bin/env python3
"""Measures the replies of `serve`, over the demo's catalogue, by a client over pipes.

    bench/served.py FOLDER [--program FILE] [--query FILE] [--rows N] [--requests N]

FILE is the built program of `serve`, by default .qserv/serve/qserv, and that of `query`, by default .qserv/qserv, where ./qserv leaves
them. Writes the demo's catalogue of N rows (1,000,000) into FOLDER, once. It prints the median and the longest time, in milliseconds,
from the last byte of a request to its `+ ok`, of 1,000 requests of a small cap and of one id; the user time of 64 scans in one
request, the mean of ten, and what they take in `query` beyond an empty script, by the least times of three; and the memory of the
program after the first 1,000 of N more requests (100,000) and after the last. The status is 1 if a median is above 1 ms, if the scans
take a fifth more than in `query`, or if the memory has grown by more than 1 MB. Only figures of an idle machine count; the user times
and the memory change little on another.
"""
import argparse
import os
import statistics
import subprocess
import sys
import time

import demo_files
import queries

HERE = os.path.dirname(os.path.abspath(__file__))
CAP = "SELECT objectId FROM Object WHERE area_cap(%d,%d,%d,1000000)\n"
SCANS = "".join(f"SELECT COUNT(*),SUM(flux) FROM Object WHERE flux>{k}\n" for k in range(64))


class Client:
    def __init__(self, program, folder):
        words = [program, "sky.txt", "catalogue.csv", "0"]
        self.process = subprocess.Popen(words, cwd=folder, stdin=subprocess.PIPE, stdout=subprocess.PIPE)

    def ask(self, script):
        """The seconds from the last byte of a request to its last line, and how many bytes the reply has."""
        self.process.stdin.write(script.encode() + b"+\n")
        began, size = time.perf_counter(), 0
        self.process.stdin.flush()
        while True:
            line = self.process.stdout.readline()
            size += len(line)
            if line == b"+ ok\n":
                return time.perf_counter() - began, size
            assert line and not line.startswith(b"+"), line

    def memory(self):
        """The resident memory, in kB."""
        with open(f"/proc/{self.process.pid}/status", encoding="ascii") as file:
            return int(next(line for line in file if line.startswith("VmRSS")).split()[1])

    def user_time(self):
        """The program's user time so far, in milliseconds, to ten of them."""
        with open(f"/proc/{self.process.pid}/stat", encoding="ascii") as file:
            return int(file.read().rpartition(")")[2].split()[11]) * 1000 / os.sysconf("SC_CLK_TCK")


def scanned(client, words):
    """The user milliseconds of 64 scans in one request, and of those in `query` beyond loading."""
    before = client.user_time()
    for _ in range(10):
        client.ask(SCANS)
    served = (client.user_time() - before) / 10
    least = [min(queries.ask(words.query, words.folder, script)[1] for _ in range(3)) for script in (SCANS, "")]
    queried = 1000 * (least[0] - least[1])
    print(f"64 scans: {served:.1f} ms of user time, and {queried:.1f} ms beyond loading in query")
    return served, queried


def measured(client, name, scripts):
    times = sorted(1000 * client.ask(script)[0] for script in scripts)
    print(f"{name}: median {statistics.median(times):.3f} ms, longest {times[-1]:.3f} ms, of {len(times)}")
    return statistics.median(times)


def main():
    parser = argparse.ArgumentParser(description=__doc__, formatter_class=argparse.RawDescriptionHelpFormatter)
    parser.add_argument("folder")
    parser.add_argument("--program", type=os.path.abspath, default=os.path.join(HERE, "..", ".qserv", "serve", "qserv"))
    parser.add_argument("--query", type=os.path.abspath, default=os.path.join(HERE, "..", ".qserv", "qserv"))
    parser.add_argument("--rows", type=int, default=1000000)
    parser.add_argument("--requests", type=int, default=100000)
    words = parser.parse_args()
    if not os.path.exists(os.path.join(words.folder, "catalogue.csv")):
        made = [sys.executable, os.path.join(HERE, "demo_files.py"), str(words.rows), "7", words.folder]
        subprocess.run(made, check=True)
    client = Client(words.program, words.folder)
    client.ask("")
    place = demo_files.RADIUS * 3 // 5, demo_files.RADIUS * 4 // 5, 0
    medians = [
        measured(client, "one id", [f"SELECT flux FROM Object WHERE objectId={1 + k * 997 % words.rows}\n" for k in range(1000)]),
        measured(client, "a small cap", [CAP % place] * 1000),
    ]
    served, queried = scanned(client, words)
    early = 0
    for k in range(words.requests):
        client.ask(f"SELECT flux FROM Object WHERE objectId={1 + k * 991 % words.rows}\n")
        early = client.memory() if k == 999 else early
    late = client.memory()
    print(f"memory: {early} kB after 1,000 more requests, {late} kB after {words.requests}")
    client.process.stdin.close()
    assert client.process.wait() == 0
    return 1 if max(medians) > 1 or served > 1.2 * queried or late > early + 1000 else 0


if __name__ == "__main__":
    sys.exit(main())
