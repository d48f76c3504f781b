#!/usr/bin/env python3
"""Measures when short queries end that come after long ones, by `query` and by `classes`.

    bench/classes.py FOLDER [--program FILE] [--rows N] [--times N] [--workers N ..] [--picture FILE]

Writes the demo's catalogue of N rows (1,000,000) into FOLDER, once. A script has four queries that group all rows by 100,000
values, and after them 20 queries of one id, each of a single chunk. The end of a query cannot be seen from outside, but a line can
wait for it. So for each query the script gets a line that waits for it, and lines that then cancel all others: the session ends
with that query. The script comes through a named pipe, which the program opens when everything is loaded. What is measured is the
time from the writing of the script to the first byte of the transcript; planning, and putting the one answer in order, are in it.
With workers, so is what they have in hand when the query ends: at most one chunk each.

It prints a table of milliseconds, the least of N times (5), for each number of workers (0 3), and draws it as FILE (an SVG).
The block of each query is compared with the one of the script without waits, which both commands answer alike. FILE of
--program is the built program, by default .qserv/qserv, where ./qserv leaves it. The status is 1 where a block is another.
Only figures of an idle machine count.
"""
import errno
import os
import statistics
import subprocess
import sys
import time

import demo_files
import program_words

COMMANDS = ["query", "classes"]
LONG = [
    f"SELECT flux,COUNT(*),{aggregate} AS a FROM Object GROUP BY flux ORDER BY a DESC LIMIT 1"
    for aggregate in ("SUM(z)", "MIN(x)", "MAX(y)", "AVG(x)")
]
SHORT = 20
# far more seconds than a run takes
SECONDS = 120


def queries(rows):
    """The lines of the queries: the long ones, and then the short ones."""
    return LONG + [f"SELECT objectId,flux FROM Object WHERE objectId={1 + at * rows // SHORT}" for at in range(SHORT)]


def ending_with(lines, number):
    """A script whose session ends with the query of a number."""
    others = [f"cancel {other}" for other in range(1, len(lines) + 1) if other != number]
    return "\n".join([*lines, f"wait {number}", *others]) + "\n"


def opened(path, process):
    """The writing end of a named pipe, once the process reads it; None if it does not."""
    end = time.monotonic() + SECONDS
    while process.poll() is None and time.monotonic() < end:
        try:
            return os.open(path, os.O_WRONLY | os.O_NONBLOCK)
        except OSError as error:
            if error.errno != errno.ENXIO:
                raise
            time.sleep(0.001)
    return None


def run(program, folder, command, workers, script):
    """The transcript, and the seconds from the script to its first byte."""
    pipe = os.path.join(folder, "pipe")
    words = [program, command, "sky.txt", "catalogue.csv", "pipe", str(workers)]
    with subprocess.Popen(words, cwd=folder, stdout=subprocess.PIPE) as process:
        script_end = opened(pipe, process)
        if script_end is None:
            process.kill()
            sys.exit(f"{' '.join(words[1:])}: status {process.wait()}, and the script was not read")
        # the script is shorter than what a pipe holds
        os.write(script_end, script.encode())
        began = time.perf_counter()
        os.close(script_end)
        first = process.stdout.read(1)
        took = time.perf_counter() - began
        told = first + process.stdout.read()
    return told.decode(), took


def block(told, number):
    """The block of a query in a transcript."""
    begin = told.index(f"query {number}\n")
    end = told.find(f"query {number + 1}\n", begin)
    return told[begin : end if end >= 0 else len(told)]


def least(words, command, workers, script, number, wanted):
    """The least milliseconds of a script's runs. In each the query of this number has the block that is wanted."""
    took = []
    for _ in range(words.times):
        told, seconds = run(words.program, words.folder, command, workers, script)
        if block(told, number) != wanted:
            sys.exit(f"{command}, {workers} workers: query {number} has another block:\n{block(told, number)}wanted:\n{wanted}")
        took.append(1000 * seconds)
    return min(took)


# ---- the picture

WIDTH, ROW, LEFT, TOP = 900, 14, 70, 40
COLOURS = {"query": "#c25a00", "classes": "#1f5f99"}


def text(x, y, told, more=""):
    return f'<text x="{x:.1f}" y="{y:.1f}" fill="#30363d" {more}>{told}</text>'


def panel(top, workers, ends, most):
    """The ends with a number of workers: a row for each query, and a mark for each command."""
    yield text(LEFT, top - 8, f"{workers} workers: milliseconds to the end of each query")
    count = len(next(iter(ends.values())))
    bottom = top + ROW * count
    for tick in range(6):
        x = LEFT + (WIDTH - LEFT - 20) * tick / 5
        yield f'<line x1="{x:.1f}" y1="{top}" x2="{x:.1f}" y2="{bottom}" stroke="#dddddd"/>'
        yield text(x, bottom + 14, f"{most * tick / 5:.0f}", 'text-anchor="middle"')
    for at in range(count):
        y = top + ROW * (at + 0.5)
        kind = "long" if at < len(LONG) else "short"
        yield text(LEFT - 8, y + 4, f"{kind} {at + 1}", 'text-anchor="end" font-size="10"')
        for command, own in ends.items():
            x = LEFT + (WIDTH - LEFT - 20) * own[at] / most
            yield f'<circle cx="{x:.1f}" cy="{y:.1f}" r="4" fill="{COLOURS[command]}" fill-opacity="0.8"/>'


def picture(measured):
    """The lines of the picture, of the ends by the number of workers and by the command."""
    heights = [TOP + ROW * len(next(iter(ends.values()))) + 30 for ends in measured.values()]
    yield f'<svg xmlns="http://www.w3.org/2000/svg" viewBox="0 0 {WIDTH} {sum(heights) + 10}" font-family="sans-serif" font-size="12">'
    yield f'<rect width="{WIDTH}" height="{sum(heights) + 10}" fill="#ffffff"/>'
    for at, command in enumerate(COMMANDS):
        yield f'<circle cx="{WIDTH - 180 + 80 * at}" cy="14" r="4" fill="{COLOURS[command]}"/>'
        yield text(WIDTH - 170 + 80 * at, 18, command)
    top = TOP
    for height, (workers, ends) in zip(heights, measured.items()):
        yield from panel(top, workers, ends, max(max(own) for own in ends.values()))
        top += height
    yield "</svg>"


# ---- the table


def table(measured):
    """The lines of the table: each long query, and of the short ones the first, the median and the last end."""
    head = [f"`{command}`, {workers} workers" for workers, ends in measured.items() for command in ends]
    yield "| | " + " | ".join(head) + " |"
    yield "|---" * (len(head) + 1) + "|"
    columns = [own for ends in measured.values() for own in ends.values()]
    count = len(LONG)
    rows = [(f"long query {at + 1}", [own[at] for own in columns]) for at in range(count)]
    picks = [("first", min), ("median", statistics.median), ("last", max)]
    rows += [(f"{name} of {SHORT} short queries", [pick(own[count:]) for own in columns]) for name, pick in picks]
    for name, values in rows:
        yield f"| {name} | " + " | ".join(f"{value:.1f}" for value in values) + " |"


def main():
    parser = program_words.parser(__doc__, rows=1000000, times=5)
    parser.add_argument("--workers", type=int, nargs="+", default=[0, 3])
    parser.add_argument("--picture", type=os.path.abspath)
    words = parser.parse_args()
    words.folder = os.path.abspath(words.folder)
    if not os.path.exists(os.path.join(words.folder, "catalogue.csv")):
        demo_files.write_all(words.rows, 7, words.folder)
    pipe = os.path.join(words.folder, "pipe")
    if not os.path.exists(pipe):
        os.mkfifo(pipe)
    lines = queries(words.rows)
    told, other = (run(words.program, words.folder, command, 0, "\n".join(lines) + "\n")[0] for command in COMMANDS)
    if told != other:
        sys.exit("query and classes write different transcripts")
    wanted = [block(told, number) for number in range(1, len(lines) + 1)]
    measured = {}
    for workers in words.workers:
        for command in COMMANDS:
            own = [
                least(words, command, workers, ending_with(lines, number), number, wanted[number - 1])
                for number in range(1, len(lines) + 1)
            ]
            measured.setdefault(workers, {})[command] = own
    print("\n".join(table(measured)))
    if words.picture:
        with open(words.picture, "w", encoding="ascii") as file:
            file.write("\n".join(picture(measured)) + "\n")
    return 0


if __name__ == "__main__":
    sys.exit(main())
