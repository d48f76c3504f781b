"""What the whole numbers of a catalogue mean: each column's unit, scale, largest rounding error and words.

The engine holds whole numbers. A float column is held as its values times a scale, a power of ten; a column of words as
the words' numbers in a list; all this is in the sidecar `columns.json` of the catalogue folder:

    catalogue = Catalogue.load(folder)
    column = catalogue.column("vtmag")          # by the user's name, whatever the case, or else by the engine's
    column.values(whole_numbers, mask)          # what the whole numbers stand for: a numpy masked array
"""
import dataclasses
import json
import os
import re

import numpy as np

from skyq_lib.errors import SkyqError
from skyq_lib.grid import to_degrees

FORMAT = "skyq catalogue 1"
SKY, CSV, SIDECAR = "sky.txt", "catalogue.csv", "columns.json"
MOST = 2**50                        # the engine's limit of a further value
MOST_COLUMNS = 12
MOST_ROWS = 4194304
MOST_BYTES = 2**29                  # of a catalogue's text
MOST_WORDS = 4096
POSITION = ("objectId", "x", "y", "z")
DEGREES = ("ra_deg", "dec_deg")     # the engine's names of the columns that keep the degrees (ingest --degrees), and of no others
NAME = re.compile(r"[A-Za-z_][A-Za-z0-9_]{0,31}")   # of the engine
NULL = -(2**63)                     # stands for an empty field while the text is read; no value can be it


@dataclasses.dataclass
class Column:
    """One column beside objectId, x, y and z."""

    name: str                       # the engine's name: the header of catalogue.csv
    source: str                     # the user's name, as the table had it
    kind: str                       # "float", "int", "bool" or "word"
    unit: str | None = None         # as astropy spells it
    scale: int = 1                  # the whole number is the value times this
    exact: bool = True              # whether each value comes back equal
    largest_error: float = 0.0      # of a value that comes back, in the column's unit
    nulls: int = 0
    infinite: int = 0               # how many of the NULLs were infinite in the source
    words: list | None = None       # of kind "word": the word of number k at place k, in order of their characters
    type: str = "int64"             # numpy's name of the source's type, which values() gives back
    description: str | None = None

    def values(self, whole, mask=None):
        """The values that whole numbers stand for, as a numpy masked array of the source's type (words: str)."""
        whole = np.asarray(whole, "i8")
        mask = np.zeros(whole.shape, bool) if mask is None else np.asarray(mask, bool)
        if self.kind == "float":
            found = (whole / float(self.scale)).astype(self.type)
        elif self.kind == "word":
            numbers, words = np.where(mask, 0, whole), np.array(self.words or [""])
            if numbers.min(initial=0) < 0 or numbers.max(initial=0) >= len(words):
                raise SkyqError(f"column {self.source} has words that its sidecar does not list; ingest the table again")
            found = words[numbers]
        else:
            found = whole.astype(self.type)
        return np.ma.MaskedArray(found, mask=mask)

    def judge(self):
        """A ValueError where the fields, whose types are right, are those of no column."""
        is_word = self.kind == "word"
        is_right = self.kind in ("float", "int", "bool", "word") and NAME.fullmatch(self.name) and self.scale >= 1
        is_right = is_right and (self.scale == 1 or self.kind == "float") and is_word == (self.words is not None)
        if not is_right or not all(isinstance(word, str) for word in self.words or []) or is_word != (self.type == "str"):
            raise ValueError
        if np.dtype(self.type).kind not in {"float": "f", "int": "iu", "bool": "b", "word": "U"}[self.kind]:
            raise ValueError

    def number_of_word(self, word):
        """The number of a word, or -1 if no row has it."""
        return self.words.index(word) if word in self.words else -1


@dataclasses.dataclass
class Catalogue:
    """A catalogue folder's sidecar."""

    source: str                     # the name of the table's file
    rows: int
    id: str | None                  # the user's name of the objectId, None where the rows were numbered
    ra: str                         # the user's names of the position's columns
    dec: str
    overlap_arcsec: float           # joins reach this far
    columns: list                   # of Column
    largest_move_mas: float = 0.0   # by rounding positions to the grid
    rms_move_mas: float = 0.0
    dropped: int = 0                # rows of the table that have no position
    folder: str = ""

    @property
    def sky_path(self):
        return os.path.join(self.folder, SKY)

    @property
    def csv_path(self):
        return os.path.join(self.folder, CSV)

    @property
    def has_degrees(self):
        """Whether the columns ra_deg and dec_deg keep the degrees of the source."""
        return DEGREES[0] in [column.name for column in self.columns]

    def column(self, name):
        """The column of the user's name, whatever the case of its letters, or else of the engine's name; None if there is none."""
        own = [column for column in self.columns if column.name not in DEGREES]
        for test in (lambda c: c.source == name, lambda c: c.source.lower() == name.lower()):
            for column in own:
                if test(column):
                    return column
        return self.engine_column(name)

    def engine_column(self, name):
        """The column of the engine's name; None if there is none."""
        return next((column for column in self.columns if column.name == name), None)

    @staticmethod
    def load(folder):
        """The catalogue of a folder; a SkyqError if it is none."""
        path = os.path.join(folder, SIDECAR)
        for name in (SIDECAR, SKY, CSV):
            if not os.path.isfile(os.path.join(folder, name)):
                raise SkyqError(f"no catalogue folder: {name} is missing; skyq ingest makes one", folder)
        try:
            with open(path, encoding="utf-8") as file:
                fields = json.load(file)
            if fields.pop("format") != FORMAT:
                raise SkyqError(f"is not of the format {FORMAT}; ingest the table again", path)
            columns = [Column(**column) for column in list_of(fields.pop("columns"))]
            found = Catalogue(**fields, columns=columns, folder=folder)
            for part in (found, *columns):
                judge_types(part)
            for column in columns:
                column.judge()
            return found
        except (ValueError, TypeError, KeyError, AttributeError):
            raise SkyqError("is no sidecar of a catalogue; ingest the table again", path) from None

    def save(self, path):
        """Writes the sidecar to a file."""
        fields = {"format": FORMAT, **dataclasses.asdict(self)}
        del fields["folder"]
        with open(path, "w", encoding="utf-8") as file:
            json.dump(fields, file, indent=1, ensure_ascii=False, allow_nan=False)
            file.write("\n")


def list_of(value):
    if not isinstance(value, list):
        raise ValueError
    return value


def judge_types(part):
    """A ValueError where a field of a dataclass has another type than it says; a whole number may stand for a float."""
    for field in dataclasses.fields(part):
        value = getattr(part, field.name)
        is_right = isinstance(value, (int, float) if field.type is float else field.type)
        if not is_right or isinstance(value, bool) and field.type is not bool:
            raise ValueError


def numbers_of_text(text, path):
    """The whole numbers of the rows of a catalogue's text, as an array of two dimensions; NULL for an empty field."""
    empty = b",%d" % NULL
    for _ in range(2):      # neighbouring empty fields share a comma
        text = text.replace(b",,", empty + b",")
    text = text.replace(b",\n", empty + b"\n")
    head, _, body = text.partition(b"\n")
    width, rows = head.count(b",") + 1, body.count(b"\n")
    numbers = np.fromstring(body.replace(b"\n", b","), dtype="i8", sep=",") if rows else np.zeros(0, "i8")
    if len(numbers) != width * rows:
        raise SkyqError("is no catalogue that skyq wrote", path)
    return head.decode().split(","), numbers.reshape(rows, width)


def read_rows(catalogue, names=None):
    """The rows of catalogue.csv in ascending objectId: a dict of masked int64 arrays, by the engine's names."""
    with open(catalogue.csv_path, "rb") as file:
        header, numbers = numbers_of_text(file.read(), catalogue.csv_path)
    numbers = numbers[np.argsort(numbers[:, 0], kind="stable")]
    wanted = header if names is None else names
    found = {name: numbers[:, header.index(name)].copy() for name in wanted}
    return {name: np.ma.MaskedArray(whole, mask=whole == NULL) for name, whole in found.items()}


def degrees_of_rows(catalogue, rows):
    """Right ascensions and declinations of rows that read_rows gave: those kept by --degrees, else those of the grid."""
    if not catalogue.has_degrees:
        return to_degrees(rows["x"].data, rows["y"].data, rows["z"].data)
    return tuple(catalogue.engine_column(name).values(rows[name].data).data for name in DEGREES)
