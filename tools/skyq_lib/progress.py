"""A bar on a terminal for long work, and nothing in a pipe."""
import contextlib
import sys
import time

WIDTH = 30
QUIET = 0.5     # seconds before the bar appears
EVERY = 0.1     # seconds between two bars


class Progress:
    """How far a piece of work is. `with Progress("read", total) as bar: bar.step(1000)`."""

    def __init__(self, label, total, stream=None):
        self.label, self.total, self.done = label, max(total, 1), 0
        self.stream = sys.stderr if stream is None else stream
        self.begun = self.shown = time.monotonic()
        self.is_drawn = False

    def step(self, count=1):
        """Adds to what is done, and draws the bar if it is time."""
        self.done += count
        now = time.monotonic()
        if self.stream.isatty() and now - self.begun > QUIET and now - self.shown > EVERY:
            self.shown, self.is_drawn = now, True
            part = min(self.done / self.total, 1.0)
            bar = "#" * round(part * WIDTH)
            self.stream.write(f"\r{self.label} [{bar:<{WIDTH}}] {part:4.0%} ")
            self.stream.flush()

    def __enter__(self):
        return self

    def __exit__(self, *_):
        if self.is_drawn:
            self.stream.write("\r" + " " * (len(self.label) + WIDTH + 10) + "\r")
            self.stream.flush()


@contextlib.contextmanager
def working(label, stream=None):
    """Shows on a terminal what is being done, where nothing tells how far it is."""
    stream = sys.stderr if stream is None else stream
    is_shown = stream.isatty()
    if is_shown:
        stream.write(f"{label} ..")
        stream.flush()
    try:
        yield
    finally:
        if is_shown:
            stream.write("\r" + " " * (len(label) + 3) + "\r")
            stream.flush()
