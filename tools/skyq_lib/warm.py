"""One program that has read a catalogue and waits for its script at a named pipe."""
import contextlib
import itertools
import os
import shutil
import subprocess
import threading
import time

from skyq_lib import engine, transcript
from skyq_lib.columns import CSV, SKY
from skyq_lib.errors import SkyqError

LOOK, LONGEST_LOOK = 0.002, 0.02    # seconds between two looks at whether the pipe opens, at first and later
PART = 65536                        # bytes that a pipe is given at a time
NUMBERS = itertools.count(1)


def bound_to_the_caller():
    """Words before a command that let it end when the thread that started it does, even if that is killed."""
    setpriv = shutil.which("setpriv")
    return [setpriv, "--pdeathsig", "TERM", "--"] if setpriv else []


class Warm:
    """A process of the program with a pipe as its script. Its pipe is made in a folder that the caller removes."""

    def __init__(self, catalogue, folder, workers):
        self.is_killed = False
        self.script = None
        self.pipe = os.path.join(folder, f"script-{next(NUMBERS)}")
        os.mkfifo(self.pipe, 0o600)
        words = [engine.program(), "query", os.path.join(catalogue, SKY), os.path.join(catalogue, CSV), self.pipe, str(workers)]
        self.process = subprocess.Popen(
            bound_to_the_caller() + words, stdin=subprocess.DEVNULL, stdout=subprocess.PIPE, stderr=subprocess.PIPE, env=engine.environment()
        )
        self.told = []
        self.reader = threading.Thread(target=engine.pass_on, args=(self.process.stderr, self.told), daemon=True)
        self.reader.start()

    def wait_until_ready(self):
        """Returns when the program has accepted the catalogue; a SkyqError if it ends instead."""
        look = LOOK
        while self.script is None:
            status = self.process.poll()
            if status is not None:
                self.reader.join()
                raise SkyqError(engine.fault(status, self.told))
            try:        # fails as long as no one reads the other end
                self.script = os.open(self.pipe, os.O_WRONLY | os.O_NONBLOCK)
            except OSError:
                time.sleep(look)
                look = min(look * 1.1, LONGEST_LOOK)
        os.set_blocking(self.script, True)

    def answers(self, queries):
        """The Answers to queries of the engine's SQL, in one script. The program ends with it."""
        text = "".join(f"{query}\n" for query in queries).encode()
        script, self.script = self.script, None
        writer = threading.Thread(target=write_all, args=(script, text), daemon=True)
        writer.start()
        out = self.process.stdout.read()
        status = self.process.wait()
        self.reader.join()
        writer.join()
        if status:
            raise SkyqError(engine.fault(status, self.told))
        found = transcript.read(out)
        if len(found) != len(queries):
            raise SkyqError(f"the program answered {len(found)} of {len(queries)} queries")
        return found

    def kill(self):
        """Ends the process at once; whoever waits for its answers gets a SkyqError."""
        self.is_killed = True
        self.process.kill()

    def end(self):
        """Frees what the object holds."""
        if self.script is not None:
            os.close(self.script)
            self.script = None
        if self.process.poll() is None:
            self.process.kill()
        self.process.wait()
        self.reader.join()
        self.process.stdout.close()
        with contextlib.suppress(FileNotFoundError):    # the pool has closed, and removed its folder
            os.unlink(self.pipe)


def write_all(pipe, text):
    """Writes a text to a pipe and closes it; a reader that has gone is no fault here."""
    try:
        for at in range(0, len(text), PART):
            os.write(pipe, text[at : at + PART])
    except OSError:
        pass
    finally:
        os.close(pipe)
