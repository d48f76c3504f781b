#!/usr/bin/env python3
"""Draws a journal of the shared scan.

    scripts/journal_plot.py JOURNAL PICTURE [--title TEXT]

JOURNAL is a file that `qserv trace` writes. PICTURE is written, in the format that its name ends with (.png, .svg). The upper part
has a mark for each take, at its entry and its chunk, in the colour of the seat that took it; seats that are eight apart share one.
The scan goes round the ring, so the marks rise and begin again at the lowest chunk. The lower part has a row for each query, from
its attach to its collect: a mark in the same column for each take that is for it too, and marks for its end. So a column with
marks in several rows is one scan that several queries share.

It needs matplotlib. A journal that is not right is not drawn. The status is 0 if the picture is written, and otherwise 1.
"""
import argparse
import sys

from journals import Attach, Cancel, Collect, Deliver, Take, read, told

COLOURS = ["#4477aa", "#ee6677", "#228833", "#ccbb44", "#66ccee", "#aa3377", "#bbbbbb", "#000000"]


def colour(seat):
    return COLOURS[seat % len(COLOURS)]


def draw_chunks(axes, journal, takes):
    """The chunks around the ring against the entries, in the colours of the seats."""
    for seat in sorted({take.seat for _, take in takes}):
        own = [(at, take.chunk) for at, take in takes if take.seat == seat]
        name = "the czar (seat 0)" if seat == 0 else f"worker {seat}"
        axes.scatter(*zip(*own), s=14, color=colour(seat), label=name, linewidths=0)
    axes.set_ylim(-0.5, max(journal.ring, 1) - 0.5)
    axes.set_ylabel("chunk")
    if takes:
        axes.legend(loc="upper left", bbox_to_anchor=(1.01, 1), frameon=False, fontsize="small")


def ends_of(journal):
    """For each query the entries of its attach, of its cancel or loss, and of its collect, of those that there are."""
    found = {}
    for at, line in enumerate(journal.entries, 1):
        if isinstance(line, (Attach, Cancel, Collect)):
            found.setdefault(line.query, {}).setdefault(type(line), at)
        for query in line.lost if isinstance(line, Deliver) else []:
            found.setdefault(query, {}).setdefault(Deliver, at)
    return found


def draw_queries(axes, journal, takes):
    """A row for each query, with the takes that are for it."""
    last = len(journal.entries)
    rows = {query: row for row, query in enumerate(sorted(ends_of(journal)))}
    for query, steps in ends_of(journal).items():
        row = rows[query]
        axes.plot([steps[Attach], steps.get(Collect, last)], [row, row], color="#dddddd", linewidth=3, zorder=1)
        for kind, mark in [(Cancel, "x"), (Deliver, "v"), (Collect, "|")]:
            if kind in steps:
                axes.plot(steps[kind], row, marker=mark, color="black", markersize=6, zorder=3)
    for at, take in takes:
        own = [rows[query] for query in take.queries]
        axes.scatter([at] * len(own), own, s=10, color=colour(take.seat), linewidths=0, zorder=2)
    axes.set_yticks(list(rows.values()), [str(query) for query in rows])
    axes.set_ylim(len(rows) - 0.5, -0.5)
    axes.set_ylabel("query")
    axes.set_xlabel("entry of the journal (x cancelled, triangle lost, bar collected)")


def draw(journal, picture, title):
    """Writes the picture."""
    import matplotlib

    matplotlib.use("Agg")
    from matplotlib import pyplot

    takes = [(at, line) for at, line in enumerate(journal.entries, 1) if isinstance(line, Take)]
    count = len({line.query for line in journal.entries if isinstance(line, Attach)})
    heights = [4, min(1 + 0.22 * count, 12)]
    figure, (upper, lower) = pyplot.subplots(2, 1, sharex=True, figsize=(10, sum(heights)), height_ratios=heights)
    draw_chunks(upper, journal, takes)
    draw_queries(lower, journal, takes)
    upper.set_title(title)
    figure.savefig(picture, dpi=120, bbox_inches="tight", metadata={"Date": None} if picture.endswith(".svg") else None)
    pyplot.close(figure)


def main():
    parser = argparse.ArgumentParser(description=__doc__, formatter_class=argparse.RawDescriptionHelpFormatter)
    parser.add_argument("journal")
    parser.add_argument("picture")
    parser.add_argument("--title", default="The shared scan: chunks around the ring, and the queries that each scan is for")
    words = parser.parse_args()
    with open(words.journal, "rb") as file:
        text = file.read()
    status, _, line = told(text)
    if status:
        print(f"{words.journal}: {line.decode()}", end="", file=sys.stderr)
        return 1
    try:
        draw(read(text), words.picture, words.title)
    except ImportError as error:
        print(f"journal_plot: {error}; it needs matplotlib", file=sys.stderr)
        return 1
    return 0


if __name__ == "__main__":
    sys.exit(main())
