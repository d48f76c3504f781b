"""The sky plan: how the sky is cut into stripes, chunks and subchunks for a catalogue; `skyq plan` makes it anew."""
import dataclasses
import os

from skyq_lib.columns import SIDECAR, SKY, Catalogue, read_rows
from skyq_lib.cuts import LEAST_OVERLAPS, cuts_of
from skyq_lib.errors import SkyqError, count_of
from skyq_lib.folders import replace_files, sweep
from skyq_lib.grid import MAX_OVERLAP, arcsec_of_text, overlap_arcsec, overlap_for, text_of_arcsec, to_degrees


@dataclasses.dataclass
class Stripe:
    """One stripe of a sky plan, from z_low up to the next stripe's; each chunk has columns times rows subchunks."""

    z_low: int
    chunks: int
    columns: int
    rows: int


@dataclasses.dataclass
class SkyPlan:
    """A sky plan: the overlap in grid units, and the stripes upwards."""

    overlap: int
    stripes: list

    @property
    def chunks(self):
        """The number of chunks."""
        return sum(stripe.chunks for stripe in self.stripes)

    def text(self):
        """The plan as the engine reads it (docs/FORMATS.md)."""
        lines = [f"stripe {s.z_low} {s.chunks} {s.columns} {s.rows}" for s in self.stripes]
        return "\n".join([f"overlap {self.overlap}", *lines]) + "\n"

    def save(self, path):
        """Writes the plan to a file."""
        with open(path, "w", encoding="ascii") as file:
            file.write(self.text())

    @staticmethod
    def load(path):
        """The plan of a file that skyq wrote (one overlap, no notes)."""
        with open(path, encoding="ascii") as file:
            first, *lines = file.read().splitlines()
        try:
            word, overlap = first.split()
            stripes = [Stripe(*(int(number) for number in line.split()[1:])) for line in lines]
            if word != "overlap" or not stripes:
                raise ValueError
            return SkyPlan(int(overlap), stripes)
        except (ValueError, TypeError):
            raise SkyqError("is no sky plan that skyq wrote", path) from None


def asked_overlap(text):
    """The arcseconds of an overlap that a user asks for; a SkyqError if it is no angle or above the engine's limit."""
    arcsec = arcsec_of_text(text)
    if overlap_for(arcsec) > MAX_OVERLAP:
        raise SkyqError(f"an overlap of {text_of_arcsec(arcsec)} is above the limit, {text_of_arcsec(overlap_arcsec(MAX_OVERLAP))}")
    return arcsec


def plan_of(ra, dec, overlap_asked, rows_per_chunk=5000, rows_per_subchunk=50):
    """The sky plan for rows at positions in degrees (numpy arrays), with an overlap in arcseconds."""
    thinnest = max(LEAST_OVERLAPS * overlap_asked / 3600, 1e-6)
    cuts = cuts_of(ra, dec, thinnest, rows_per_chunk, rows_per_subchunk)
    return SkyPlan(overlap_for(overlap_asked), [Stripe(cut.z_low, cut.chunks, cut.columns, cut.rows) for cut in cuts])


def add_words(parser, command):
    parser.add_argument("folder", metavar="FOLDER")
    parser.add_argument("--overlap", metavar="ANGLE", help="joins reach this far, as in 60arcsec; as it is if not given")
    parser.add_argument("--rows", type=int, default=5000, metavar="N", help="rows a chunk, 5000")
    parser.add_argument("--subrows", type=int, default=50, metavar="N", help="rows a subchunk, 50")


def run(words):
    """Makes the sky plan anew; the sidecar's overlap follows."""
    if words.rows < 1 or words.subrows < 1:
        raise SkyqError("--rows and --subrows are at least 1")
    catalogue = Catalogue.load(words.folder)
    if words.overlap is not None:
        catalogue.overlap_arcsec = asked_overlap(words.overlap)
    rows = read_rows(catalogue, ["x", "y", "z"])
    ra, dec = to_degrees(rows["x"].data, rows["y"].data, rows["z"].data)
    plan = plan_of(ra, dec, catalogue.overlap_arcsec, words.rows, words.subrows)
    sweep(words.folder)
    replace_files(words.folder, {SKY: plan.save, SIDECAR: catalogue.save})
    print(f"{os.path.join(words.folder, SKY)}: {summary(plan, catalogue)}")


def summary(plan, catalogue):
    """One line on a sky plan."""
    return f"{count_of(len(plan.stripes), 'stripe')}, {count_of(plan.chunks, 'chunk')}, overlap {text_of_arcsec(catalogue.overlap_arcsec)}"
