#!/usr/bin/env python3
"""Runs the built program where what is around it fails: outputs, texts and words.

    scripts/outside.py [PROGRAM]

PROGRAM is the built program, by default crates/qserv_cli/out/qserv_cli, where the whole check leaves it.

Each form of the command line is run. Standard output is full, closed, a pipe whose reader is gone at once or after the first
bytes, a full pipe that does not wait, or a file at its greatest length; standard error is full or closed, and standard input is
closed. Each text is a folder, a device, or a file that may not be read or whose read fails, the sky plan a named pipe, and the
catalogue grows or shrinks while it is read. A name has 5,000 bytes, and words are no UTF-8. What has to come is a row of the table of outcomes in docs/FORMATS.md: a status and its line, with
nothing on standard output unless it is 0 or 8. No run may end by a signal. Of a text that changes while it is read any state may
be seen, so there only the statuses that may come are listed, and that a fault has one line and no output.

It prints each run that ended otherwise, what it left out since the machine lacks it, and how many runs it made. The status is 0
where none ended otherwise, and 1 else, also where there is no program. It writes into a temporary folder alone.
"""
import argparse
import os
import pwd
import resource
import shutil
import subprocess
import sys
import tempfile
import threading

import worked_runs
import worked_streams

HERE = os.path.dirname(os.path.abspath(__file__))
PROGRAM = os.path.join(HERE, "..", "crates", "qserv_cli", "out", "qserv_cli")
# a heading of 1,022 names for each query: 255 of them are more than half a million bytes
LONG = ("SELECT x" + ",x" * 1021 + " FROM Object LIMIT 0\n") * 255
HEADINGS = "".join(f"query {number}\nx{',x' * 1021}\n0 rows, 1 chunks\n" for number in range(1, 256)).encode()
TEXTS = {
    "sky": worked_runs.SKY,
    "csv": "objectId,x,y,z\n1,268435456,0,0\n",
    "measured": "sourceId,objectId\n7,1\n",
    "script": worked_streams.SCRIPT,
    "journal": worked_runs.BOARD,
    "long": LONG,
}
LOAD, EXPLAIN, CHECK = ["load", "sky", "csv"], ["explain", "sky", "csv", "script"], ["check", "journal"]
ASK_LONG = ["query", "sky", "csv", "long", "0"]
ASK, BY_CLASS, TRACE = ([word, "sky", "csv", "script", "2"] for word in ("query", "classes", "trace"))
SOURCES = ["sources", "sky", "csv", "measured", "script", "2"]
FORMS = [LOAD, EXPLAIN, ASK, BY_CLASS, TRACE, SOURCES, CHECK, ["demo", "300", "7", "2"]]
# each place of a form in which the name of a text is
PLACES = [(words, place) for words in FORMS for place, word in enumerate(words) if word in TEXTS]
# how a run ends of which the text in a place is empty
EMPTY = [
    (LOAD, 1, 3, b"sky line 1: syntax\n"),
    (LOAD, 2, 4, b"catalogue header: field 1\n"),
    (ASK, 3, 0, b""),
    (SOURCES, 3, 11, b"sources header: field 1\n"),
    (CHECK, 1, 12, b"journal line 1: syntax\n"),
]
REPORT = b"1 rows, 1 of 8 chunks\nchunk 4: 1 rows, 0 overlap\n"
USAGE, FAILED = (worked_runs.USAGE + "\n").encode(), b"output failed\n"
# the bytes that a file may have at most where it may have no more: the limit is within a write that others follow, or the last one
LENGTHS = [100000, len(HEADINGS) - 1]
# a row of the catalogues that change, and how often one is tried; far more seconds than a run takes
ROW, TIMES, SECONDS = "%d,268435456,0,0\n", 5, 120


class Runs:
    """Runs of a program in a folder, and what is wrong with those that ended otherwise."""

    def __init__(self, program, folder):
        self.program, self.folder, self.count, self.wrong, self.left_out = program, folder, 0, [], []

    def ended(self, words, out=subprocess.PIPE, closed=None, **more):
        """The status and the bytes of a run; one of its streams may be closed."""
        given = {"stdin": subprocess.DEVNULL, "stdout": out, "stderr": subprocess.PIPE, **more}
        if closed is not None:
            given |= {["stdin", "stdout", "stderr"][closed]: None, "preexec_fn": lambda: os.close(closed)}
        end = subprocess.run([self.program, *words], cwd=self.folder, timeout=SECONDS, check=False, **given)
        return end.returncode, end.stdout or b"", end.stderr or b""

    def compare(self, what, told, status, out=b"", err=b""):
        self.count += 1
        if told != (status, out, err):
            self.wrong.append(f"{what}: status {told[0]}, {told[1][:200]!r}, {told[2][:200]!r}; wanted: {status}, {out[:200]!r}, {err!r}")

    def path(self, name):
        return os.path.join(self.folder, name)


# ---- outputs


def outputs(runs):
    """Standard output that takes nothing or not all, and standard error or standard input that is closed."""
    for words in FORMS:
        with open("/dev/full", "wb") as full:
            runs.compare(f"{words[0]}, a full device", runs.ended(words, full), 8, err=FAILED)
        runs.compare(f"{words[0]}, no standard output", runs.ended(words, closed=1), 8, err=FAILED)
        runs.compare(f"{words[0]}, a pipe without a reader", to_nobody(runs, words), 8, err=FAILED)
    runs.compare("a reader that goes", to_a_reader_that_goes(runs), 8, HEADINGS[:1], FAILED)
    runs.compare("a full pipe", to_a_full_pipe(runs), 8, err=FAILED)
    for most in LENGTHS:
        runs.compare(f"a file of at most {most} bytes", to_a_short_file(runs, most), 8, HEADINGS[:most], FAILED)
    with open("/dev/full", "wb") as full:
        runs.compare("a full device, nothing written", runs.ended(["explain", "sky", "csv", os.devnull], full), 0)
    runs.compare("no standard error", runs.ended(LOAD, closed=2), 0, REPORT)
    runs.compare("no standard error, no form", runs.ended(["load"], closed=2), 2)
    runs.compare("no standard error, a fault", runs.ended(["load", "csv", "csv"], closed=2), 3)
    with open("/dev/full", "wb") as full:
        runs.compare("no standard error, a full device", runs.ended(LOAD, full, closed=2), 8)
        runs.compare("a full standard error, a fault", runs.ended(["load", "csv", "csv"], stderr=full), 3)
    runs.compare("no standard input", runs.ended(LOAD, closed=0), 0, REPORT)


def to_nobody(runs, words):
    """A run whose standard output is a pipe that no one reads."""
    out, into = os.pipe()
    os.close(out)
    try:
        return runs.ended(words, into)
    finally:
        os.close(into)


def to_a_reader_that_goes(runs):
    """A run that writes more than a pipe holds, of which one byte is read."""
    with subprocess.Popen(
        [runs.program, *ASK_LONG], cwd=runs.folder, stdout=subprocess.PIPE, stderr=subprocess.PIPE, bufsize=0
    ) as process:
        told = process.stdout.read(1)
        process.stdout.close()
        err = process.stderr.read()
        process.wait(SECONDS)
    return process.returncode, told, err


def to_a_full_pipe(runs):
    """A run whose writes fail when the pipe is full, since they do not wait. What is in the pipe is left out if it is a prefix."""
    out, into = os.pipe()
    os.set_blocking(into, False)
    status, _, err = runs.ended(ASK_LONG, into)
    os.close(into)
    with open(out, "rb") as pipe:
        told = pipe.read()
    return status, b"" if told and HEADINGS.startswith(told) else told, err


def to_a_short_file(runs, most):
    """A run that writes more than a file may have; the signal of that limit is ignored, as this process has it."""

    def limit():
        resource.setrlimit(resource.RLIMIT_FSIZE, (most, most))

    with open(runs.path("short"), "wb") as file:
        status, _, err = runs.ended(ASK_LONG, file, preexec_fn=limit, restore_signals=False)
    with open(runs.path("short"), "rb") as file:
        return status, file.read(), err


# ---- texts


def cannot_be_read(name):
    return os.fsencode(name) + b": cannot be read\n"


def named(words, place, name):
    """The words with another name in a place."""
    return words[:place] + [name] + words[place + 1 :]


def texts(runs):
    """Names of what is no file, or no file that may be read."""
    for words, place in PLACES:
        # the last one opens, and each read of it fails
        for name in [".", "/", "none", "sky/csv", "n" * 5000, "n/" * 2500, "/proc/self/mem"]:
            what = f"{words[0]}, the {words[place]} {name[:9]}"
            runs.compare(what, runs.ended(named(words, place, name)), 7, err=cannot_be_read(name))
    for words, place, status, told in EMPTY:
        zeros, empty = (runs.ended(named(words, place, device)) for device in ("/dev/zero", "/dev/null"))
        runs.compare(f"{words[place]} of zeros without end", zeros, 6, err=b"/dev/zero: too long\n")
        runs.compare(f"{words[place]} without bytes", empty, status, err=told)
    pipes(runs)
    unreadable(runs)


def pipes(runs):
    """A named pipe: its writer gives the text, or nothing."""
    for text, want in [(TEXTS["sky"], (0, REPORT)), ("", (3, b"", b"sky line 1: syntax\n"))]:
        os.mkfifo(runs.path("pipe"))
        writer = threading.Thread(target=worked_streams.feed, args=(runs.path("pipe"), text.encode()), daemon=True)
        writer.start()
        runs.compare(f"a pipe of {len(text)} bytes", runs.ended(["load", "pipe", "csv"]), *want)
        writer.join()
        os.remove(runs.path("pipe"))


def unreadable(runs):
    """A file that the user may not read; as root the program is run as nobody."""
    shutil.copyfile(runs.path("sky"), runs.path("secret"))
    os.chmod(runs.path("secret"), 0)
    who = {}
    if os.getuid() == 0:
        try:
            who = {"user": pwd.getpwnam("nobody").pw_uid}
        except KeyError:
            runs.left_out.append("there is no user nobody: a file that may not be read is left out")
            return
    for words, place in PLACES:
        what = f"{words[0]}, the {words[place]} may not be read"
        runs.compare(what, runs.ended(named(words, place, "secret"), **who), 7, err=cannot_be_read("secret"))


def changing(runs):
    """A catalogue that grows, or is cut, while it is read."""
    whole = "objectId,x,y,z\n" + "".join(map(ROW.__mod__, range(100000)))
    for what, change in [("grows", grow), ("shrinks", shrink)]:
        for _ in range(TIMES):
            path = runs.path("live")
            with open(path, "w", encoding="ascii") as file:
                file.write(whole)
            going = threading.Event()
            writer = threading.Thread(target=change, args=(path, going), daemon=True)
            writer.start()
            status, out, err = runs.ended(["load", "sky", "live"])
            going.set()
            writer.join()
            runs.count += 1
            is_told = (status, err) == (0, b"") or status == 4 and not out and err.startswith(b"catalogue ") and err.count(b"\n") == 1
            if not is_told:
                runs.wrong.append(f"a catalogue that {what}: status {status}, {out[:200]!r}, {err[:200]!r}")


def grow(path, going):
    """Appends rows, byte by byte, until it is stopped."""
    with open(path, "ab", buffering=0) as file:
        for number in range(100000, 4000000):
            for byte in (ROW % number).encode():
                if going.is_set():
                    return
                file.write(bytes([byte]))


def shrink(path, going):
    """Takes bytes away until it is stopped, or none is left."""
    for size in range(os.path.getsize(path), 0, -1000):
        if going.is_set():
            return
        os.truncate(path, size)


# ---- words


def words_of_bytes(runs):
    """Words that are no UTF-8, in each place."""
    for words in FORMS:
        for place in range(len(words)):
            other = [os.fsencode(word) for word in words]
            other[place] += b"\xff"
            runs.compare(f"{words[0]}, word {place + 1} no UTF-8", runs.ended(other), 2, err=USAGE)
    runs.compare("a name in UTF-8", runs.ended(["load", "\u03b1", "csv"]), 7, err=cannot_be_read("\u03b1"))


def main():
    words = argparse.ArgumentParser(description=__doc__, formatter_class=argparse.RawDescriptionHelpFormatter)
    words.add_argument("program", nargs="?", default=PROGRAM)
    program = os.path.abspath(words.parse_args().program)
    if not (os.path.isfile(program) and os.access(program, os.X_OK)):
        print(f"outside: there is no built program at {os.path.relpath(program)}")
        return 1
    if not os.path.exists("/dev/full"):
        print("outside: skipped: there is no /dev/full here")
        return 0
    with tempfile.TemporaryDirectory() as folder:
        # another user runs the program there too
        os.chmod(folder, 0o755)
        runs = Runs(shutil.copy(program, os.path.join(folder, "qserv")), folder)
        for name, text in TEXTS.items():
            with open(runs.path(name), "w", encoding="ascii") as file:
                file.write(text)
        for part in (outputs, texts, changing, words_of_bytes):
            part(runs)
    for line in runs.wrong + runs.left_out:
        print(f"outside: {line}")
    print(f"outside: {'not ok' if runs.wrong else 'ok'}, {runs.count} runs, {len(runs.wrong)} otherwise")
    return 1 if runs.wrong else 0


if __name__ == "__main__":
    sys.exit(main())
