#!/usr/bin/env python3
"""Compares what the built program of `serve` writes for requests with what `query` writes for the same scripts.

    scripts/served_requests.py FOLDER [--program FILE] [--serve FILE] [--scripts N] [--seed SEED]

It takes the examples first: an input cut at every byte, requests without end, without lines, with carriage returns, above the limit
of bytes, a reader that closes, and a client that sends a request only after it has the reply to the one before. Then N random scripts
(10,000), each a request, 50 over each random sky and catalogue, with waits and cancels among the queries: with no workers both
programs write one text for each script, and the replies are compared by their bytes. No line of these transcripts may begin with `+`.
The requests of an input are found here by themselves, from docs/FORMATS.md.

FILE is the program of `query`, by default .qserv/qserv, and that of `serve`, by default .qserv/serve/qserv, where ./qserv leaves them.
It writes a line for each fact that does not hold, and how many it has tried. The status is 0 if all hold.
"""
import concurrent.futures
import os
import random
import re
import subprocess
import sys

import compare_answers
import random_sessions
import random_worlds

# bench/ is on the path since compare_answers was imported
import program_words

HERE = os.path.dirname(os.path.abspath(__file__))
EXAMPLES = os.path.join(HERE, "..", "examples")
LIMIT, OF_A_WORLD, SECONDS = 8388608, 50, 120
OPEN, LONG, OK = b"+ request without end\n", b"+ script: too long\n", b"+ ok\n"


class World:
    """A folder with a sky plan and a catalogue, and both programs over them."""

    def __init__(self, words, folder, sky="sky", catalogue="csv"):
        self.words, self.folder, self.texts, self.known = words, folder, [sky, catalogue], {}

    def reply(self, request, workers=0):
        """The reply to a request, from what `query` writes for it as a script."""
        if len(request) > LIMIT:
            return LONG
        if request not in self.known:
            name = os.path.join(self.folder, "script")
            with open(name, "wb") as file:
                file.write(request)
            words = [self.words.program, "query", *self.texts, "script", str(workers)]
            ended = subprocess.run(words, cwd=self.folder, capture_output=True, timeout=SECONDS)
            wanted = {0: ended.stdout + OK, 5: b"+ " + ended.stderr}
            if re.search(rb"^\+", ended.stdout, re.MULTILINE):
                wanted = {0: b"a line of the transcript begins with +\n"}
            self.known[request] = wanted.get(ended.returncode, b"query failed: " + ended.stderr)
        return self.known[request]

    def wanted(self, given):
        """What is written for an input: the replies, and the last line if it ends in a request."""
        lines = re.findall(rb"[^\n]*\n|[^\n]+\Z", given)
        written, request = b"", b""
        for line in lines:
            if line in (b"+\n", b"+\r\n"):
                written, request = written + self.reply(request), b""
            else:
                request += line
        return written + (OPEN if request else b"")

    def start(self, workers=0, **more):
        words = [self.words.serve, *self.texts, str(workers)]
        return subprocess.Popen(words, cwd=self.folder, stdin=subprocess.PIPE, stdout=subprocess.PIPE, stderr=subprocess.PIPE, **more)

    def served(self, given, workers=0):
        """The status, and what is written to both streams."""
        process = self.start(workers)
        out, err = process.communicate(given, timeout=SECONDS)
        return process.returncode, out, err

    def is_served(self, given, workers=0):
        return self.served(given, workers) == (0, self.wanted(given), b"")


def example():
    with open(os.path.join(EXAMPLES, "script.sql"), "rb") as file:
        return file.read()


def facts_of_cuts(world):
    """An input cut at every byte: each front of it is an input of its own."""
    faulty = b"SELECT COUNT(*) FROM Object\nwait 2\n"
    whole = b"SELECT objectId FROM Object\n+\n" + faulty + b"+\r\n+\n++\n + \nwait 1\n+\n"
    for end in range(len(whole) + 1):
        yield f"the first {end} bytes", world.is_served(whole[:end])


def facts_of_requests(world):
    script = example()
    yield "the example", world.is_served(script + b"+\n", 3)
    yield "the example twice", world.is_served((script + b"+\n") * 2, 3)
    yield "nothing", world.served(b"") == (0, b"", b"")
    yield "requests without lines", world.served(b"+\n" * 1000) == (0, OK * 1000, b"")
    yield "a last line + without its line feed", world.served(b"+\n+")[1] == OK + OPEN
    yield "a script without end", world.served(script) == (0, OPEN, b"")
    yield "a byte zero", world.is_served(b"\0\n+\n\0")
    note = b"#" * 16383 + b"\n"
    most = note * (LIMIT // len(note))
    yield "a script at the limit of bytes", world.served(most + b"+\n+\n") == (0, OK * 2, b"")
    yield "one byte more", world.served(most + b"\n+\n+\n") == (0, LONG + OK, b"")
    yield "64 MB without a line", world.served(b"x" * (1 << 26) + b"\n+\n+\n") == (0, LONG + OK, b"")
    yield "a line that is too long", world.is_served(b"x" * 16385 + b"\n+\n")
    yield "wrong usage", world_of_words(world, []) == (2, b"", b"usage: qserv serve SKY CSV WORKERS\n")
    yield "no such file", world_of_words(world, ["none", "csv", "0"]) == (7, b"", b"none: cannot be read\n")
    yield "too many workers", world_of_words(world, [*world.texts, "17"])[0] == 2
    sky = os.path.join(EXAMPLES, "catalogue.csv")
    yield "a fault of the sky plan", world_of_words(world, [sky, world.texts[1], "0"]) == (3, b"", b"sky line 1: syntax\n")


def world_of_words(world, words):
    ended = subprocess.run([world.words.serve, *words], cwd=world.folder, input=b"+\n", capture_output=True, timeout=SECONDS)
    return ended.returncode, ended.stdout, ended.stderr


def facts_of_clients(world):
    process = world.start(2)
    for k in range(200):
        request = b"SELECT COUNT(*) FROM Object WHERE objectId<%d\n" % k
        process.stdin.write(request + b"+\n")
        process.stdin.flush()
        wanted = world.reply(request)
        got = b"".join(process.stdout.readline() for _ in range(wanted.count(b"\n")))
        if got != wanted:
            yield f"reply {k} to a client that waits: {got}", False
    process.stdin.close()
    yield "the end of a client that waits", process.wait(SECONDS) == 0
    for stream in (process.stdout, process.stderr):
        stream.close()
    process = world.start(0)
    process.stdout.close()
    process.stdin.write(b"SELECT COUNT(*) FROM Object\n+\n")
    process.stdin.close()
    yield "a reader that closes", (process.wait(SECONDS), process.stderr.read()) == (8, b"output failed\n")
    process.stderr.close()
    closed = subprocess.run(["sh", "-c", '"$@" <&-', "sh", world.words.serve, *world.texts, "0"], cwd=world.folder, capture_output=True)
    yield "an input that is closed", (closed.returncode, closed.stdout, closed.stderr) == (7, b"", b"input: cannot be read\n")


def random_world(words, number):
    """The scripts of a random world that differ, if any does."""
    folder = os.path.join(words.folder, f"world{number}")
    os.makedirs(folder, exist_ok=True)
    draw = random.Random(f"{words.seed} {number}")
    drawn = random_sessions.world_of(draw)
    compare_answers.write(folder, {"sky": drawn.sky.text, "csv": drawn.catalogue(draw)})
    world = World(words, folder)
    count = min(OF_A_WORLD, words.scripts - number * OF_A_WORLD)
    scripts = [random_sessions.script_of(draw, drawn).encode("latin-1") for _ in range(count)]
    return None if world.is_served(b"".join(script + b"+\n" for script in scripts)) else folder


def facts_of_random(words):
    worlds = -(-words.scripts // OF_A_WORLD)
    with concurrent.futures.ThreadPoolExecutor(os.cpu_count()) as pool:
        for folder in pool.map(lambda number: random_world(words, number), range(worlds)):
            yield f"random scripts in {folder}", folder is None


def main():
    parser = program_words.parser(__doc__, scripts=10000, seed=1)
    parser.add_argument("--serve", type=os.path.abspath, default=os.path.join(HERE, "..", ".qserv", "serve", "qserv"))
    words = parser.parse_args()
    words.folder = os.path.abspath(words.folder)
    os.makedirs(words.folder, exist_ok=True)
    names = [os.path.abspath(os.path.join(EXAMPLES, name)) for name in ("sky.txt", "catalogue.csv")]
    world = World(words, words.folder, *names)
    tried = failed = 0
    for facts in (facts_of_cuts(world), facts_of_requests(world), facts_of_clients(world), facts_of_random(words)):
        for fact, holds in facts:
            tried += 1
            if not holds:
                failed += 1
                print(f"served_requests: does not hold: {fact}")
    print(f"served_requests: {'not ok' if failed else 'ok'}, {tried} facts, {words.scripts} random scripts")
    return 1 if failed else 0


if __name__ == "__main__":
    sys.exit(main())
