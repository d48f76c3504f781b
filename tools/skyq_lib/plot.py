"""The command plot: four pictures of a catalogue, drawn by matplotlib.

chunks       the parts of the sky plan, coloured by their rows: uneven parts show at once
density      rows a square degree: shows that positions and their handedness are right
chunk        the rows of one chunk by subchunk, and those of its overlap
separations  how many pairs lie how far apart, beside what rows at random would have: shows what the join finds
"""
import os

import numpy as np

from skyq_lib import engine, grid, pictures, query
from skyq_lib.columns import Catalogue, degrees_of_rows, read_rows
from skyq_lib.cuts import area_with_rows
from skyq_lib.errors import SkyqError, need
from skyq_lib.partition import Partition

KINDS = ("chunks", "density", "chunk", "separations")
ENDINGS = (".png", ".pdf", ".svg")
BINS = 60                   # of the separations


def add_words(parser, command):
    add = parser.add_argument
    add("folder", metavar="FOLDER", help="a catalogue folder, as skyq ingest makes it")
    add("what", metavar="|".join(KINDS), choices=KINDS, help="what is drawn")
    add("-o", "--output", metavar="FILE", required=True, help="the picture, by its ending " + ", ".join(ENDINGS))
    add("--chunk", type=int, metavar="N", help="which chunk; the one of middling rows if not given")
    add("--radius", metavar="ANGLE", help="how far apart pairs may be, as 30arcsec; as far as the overlap allows if not given")


def run(words):
    """Draws one picture, beside its file, which it replaces."""
    if not words.output.lower().endswith(ENDINGS):
        raise SkyqError(f"the ending is none of {', '.join(ENDINGS)}", words.output)
    catalogue = Catalogue.load(words.folder)
    need("matplotlib", "a picture").use("Agg")
    draw = {"chunks": chunks, "density": density, "chunk": one_chunk, "separations": separations}[words.what]
    figure, told = draw(catalogue, words)
    ending = os.path.splitext(words.output)[1]
    beside = f"{words.output}.new-{os.getpid()}{ending}"
    try:
        figure.savefig(beside, dpi=110, bbox_inches="tight")
        os.replace(beside, words.output)
    finally:
        if os.path.exists(beside):
            os.unlink(beside)
    print(f"{words.output}: {told}")


class Placed:
    """The rows of a catalogue and the parts that they lie in."""

    def __init__(self, catalogue):
        rows = read_rows(catalogue, ["x", "y", "z", *([] if not catalogue.has_degrees else ("ra_deg", "dec_deg"))])
        if not len(rows["x"]):
            raise SkyqError("the catalogue has no rows to draw", catalogue.folder)
        self.x, self.y, self.z = (rows[axis].data for axis in "xyz")
        self.ra, self.dec = degrees_of_rows(catalogue, rows)
        self.partition = Partition.load(catalogue.sky_path)
        self.chunk, self.sub = self.partition.place(self.x, self.y, self.z)
        self.counts = np.bincount(self.chunk, minlength=self.partition.chunks)

    def summary(self):
        filled = self.counts[self.counts > 0]
        return f"{len(self.x):,} rows in {len(filled)} of {len(self.counts)} chunks, {filled.min():,} to {filled.max():,} rows a chunk"


def chunks(catalogue, _):
    """The sky by chunk, each coloured by its rows."""
    rows = Placed(catalogue)
    sky = pictures.Sky(rows.ra, rows.dec)
    ra, dec = sky.raster()
    at = rows.partition.place(*grid.to_grid(ra, dec))[0]
    sky.paint(np.where(rows.counts[at] > 0, rows.counts[at], np.nan), "viridis", "rows a chunk", rows.counts.max() > 20 * max(1, rows.counts[rows.counts > 0].min()))
    sky.borders(at)
    told = f"{rows.summary()}, overlap {grid.text_of_arcsec(catalogue.overlap_arcsec)}"
    return sky.finished(told), told


def density(catalogue, _):
    """The sky by cells of equal area, each coloured by its rows a square degree."""
    rows = Placed(catalogue)
    sky = pictures.Sky(rows.ra, rows.dec)
    cells = pictures.Cells(sky.cell_side(len(rows.ra)))
    counts = np.bincount(cells.of(rows.ra, rows.dec), minlength=cells.count)
    found = counts[cells.of(*sky.raster())] / cells.area
    sky.paint(np.where(found > 0, found, np.nan), "magma", "rows a square degree")
    told = f"{len(rows.ra):,} rows, in cells of {cells.area:.3g} square degrees"
    return sky.finished(told), told


def one_chunk(catalogue, words):
    """One chunk's rows by subchunk, with the rows of its overlap."""
    rows = Placed(catalogue)
    number = words.chunk
    if number is None:
        filled = np.flatnonzero(rows.counts)
        number = int(filled[np.argsort(rows.counts[filled], kind="stable")[len(filled) // 2]])
    if not 0 <= number < len(rows.counts) or not rows.counts[number]:
        raise SkyqError(f"chunk {number} has no rows; the chunks are 0 to {len(rows.counts) - 1}")
    own, overlap = next((own, overlap) for one, own, overlap in rows.partition.near_chunks(rows.chunk, rows.x, rows.y, rows.z) if one == number)
    stripe = rows.partition.stripe_of(number)
    told = f"chunk {number}: {len(own):,} rows in {stripe.columns} by {stripe.rows} subchunks, {len(overlap):,} rows in its overlap"
    return pictures.scattered(rows.ra, rows.dec, own, rows.sub[own], overlap, told), told


def separations(catalogue, words):
    """How many pairs are how far apart, by the program's own join."""
    reach = grid.arcsec_of_text(words.radius) if words.radius else catalogue.overlap_arcsec
    a, b, own = query.position(catalogue, "a."), query.position(catalogue, "b."), query.quoted(catalogue.id or "objectId")
    text = f"SELECT DISTANCE({a},{b}) AS apart FROM Object AS a JOIN Object AS b ON DISTANCE({a},{b})<={reach / 3600!r} AND a.{own}<b.{own}"
    found = query.answer(catalogue, text, lambda sql: engine.ask(catalogue.folder, [sql])[0])
    apart = np.asarray(found.table["apart"]) * 3600
    rows = Placed(catalogue)
    area, count = area_with_rows(rows.ra, rows.dec), len(rows.ra)
    edges = np.linspace(0, reach, BINS + 1)
    # the area of a ring around each row, times the rows a square degree, each pair counted once
    rings = np.pi * np.diff((edges / 3600) ** 2)
    told = f"{len(apart):,} pairs within {grid.text_of_arcsec(reach)}; {count:,} rows at random on {area:,.0f} square degrees would have {count * (count - 1) / 2 * rings.sum() / area:,.0f}"
    return pictures.histogram(apart, edges, count * (count - 1) / 2 * rings / area, told), told
