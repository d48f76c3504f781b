"""Runs the program over a catalogue folder: `sky.txt` and `catalogue.csv`."""
import os
import signal
import subprocess
import sys
import tempfile
import threading

from skyq_lib import transcript
from skyq_lib.columns import CSV, SKY
from skyq_lib.errors import SkyqError

CHECKOUT = os.path.dirname(os.path.dirname(os.path.dirname(os.path.abspath(__file__))))
MOST_QUERIES = 255                  # of a script
BUILDING = "qserv: crate "          # how the launcher's lines begin that tell how far it has built
# What the launcher sets for the program's memory if there are more than four workers; it sets other values for fewer.
MEMORY = {
    "MALLOC_TOP_PAD_": "1048576",
    "MALLOC_TRIM_THRESHOLD_": "2000000000",
    "MALLOC_MMAP_THRESHOLD_": "524288",
    "GLIBC_TUNABLES": "glibc.malloc.hugetlb=1",
}


def program():
    """The program's path: $SKYQ_PROGRAM, else `qserv` of the checkout; a SkyqError says how to get one."""
    path = os.environ.get("SKYQ_PROGRAM") or os.path.join(CHECKOUT, "qserv")
    if not os.access(path, os.X_OK) or os.path.isdir(path):
        raise SkyqError(f"{path} is no program: set SKYQ_PROGRAM to the path of qserv")
    return path


def environment():
    """The environment that the program runs in: what the launcher sets for its memory."""
    return {**MEMORY, **os.environ}


def default_workers():
    """The number of worker threads where nothing is said: one less than the processors, 0 to 16."""
    return max(0, min(16, (os.cpu_count() or 1) - 1))


def judge_workers(number):
    """Refuses what is no number of worker threads; None is the default."""
    if number is not None and not 0 <= number <= 16:
        raise SkyqError("--workers is 0 to 16")


def run(command, folder, script=None, workers=None, timeout=None):
    """What the program writes, bytes, for `load`, `query` or `explain` of a folder; script is text.

    A status that is not 0, or the end of the time in seconds, is a SkyqError with the program's own line.
    """
    words = [program(), command, os.path.join(folder, SKY), os.path.join(folder, CSV)]
    if script is None:
        return finished(words, timeout)
    with tempfile.NamedTemporaryFile("w", prefix="skyq-", suffix=".sql", encoding="utf-8") as file:
        file.write(script)
        file.flush()
        words.append(file.name)
        if command == "query":
            words.append(str(default_workers() if workers is None else workers))
        return finished(words, timeout)


def finished(words, timeout):
    """Runs the program to its end; returns what it wrote."""
    process = subprocess.Popen(words, stdout=subprocess.PIPE, stderr=subprocess.PIPE, env=environment())
    told = []
    reader = threading.Thread(target=pass_on, args=(process.stderr, told), daemon=True)
    timer = threading.Timer(timeout, process.kill) if timeout else None
    try:
        reader.start()
        if timer:
            timer.start()
        out = process.stdout.read()
        status = process.wait()
        reader.join()
    finally:
        is_late = bool(timer) and timer.finished.is_set()
        if timer:
            timer.cancel()
        if process.poll() is None:
            process.kill()
            process.wait()
        process.stdout.close()
    if status:
        raise SkyqError(f"the program took more than {timeout:g} s" if is_late else fault(status, told))
    return out


def pass_on(stream, told):
    """Keeps the lines of a program's standard error; those of the launcher, which may build for minutes, are shown."""
    with stream:
        for line in stream:
            text = line.decode("utf-8", "replace").rstrip()
            told.append(text)
            if text.startswith("qserv: "):
                print(text, file=sys.stderr, flush=True)


def fault(status, told):
    """What a status of the program means for who runs skyq; the program's last line says what was at fault."""
    line = next((text for text in reversed(told) if text and not text.startswith(BUILDING)), end_of(status))
    if status == 2:
        return f"the program does not know its words; is {program()} the right one?"
    if status in (3, 4):
        return f"the catalogue folder is not as skyq ingest makes it ({line}); ingest the table again"
    return f"the program failed: {line}"


def end_of(status):
    """How a program ended that has said nothing."""
    if status >= 0:
        return f"it ended with status {status}"
    try:
        return f"it was ended by {signal.Signals(-status).name}"
    except ValueError:
        return f"it was ended by signal {-status}"


def ask(folder, queries, workers=None, timeout=None):
    """The Answer of each query of the engine's SQL, all in one script and one shared scan; at most 255."""
    if len(queries) > MOST_QUERIES:
        raise SkyqError(f"{len(queries)} queries are too many for one script of {MOST_QUERIES}")
    found = transcript.read(run("query", folder, "".join(f"{query}\n" for query in queries), workers, timeout))
    if len(found) != len(queries):
        raise SkyqError(f"the program answered {len(found)} of {len(queries)} queries")
    return found
