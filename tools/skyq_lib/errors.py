"""What a user is told: one line for each fault, and no traceback."""
import importlib

# The Debian package of each module that only some commands want.
PACKAGES = {
    "numpy": "python3-numpy",
    "astropy": "python3-astropy",
    "scipy": "python3-scipy",
    "matplotlib": "python3-matplotlib",
    "astropy_healpix": "python3-astropy-healpix",
    "psycopg": "python3-psycopg",
}


class SkyqError(Exception):
    """A fault of the user's input, as one plain line: `FILE: row R: WHAT`. Rows count from 1, behind the header."""

    def __init__(self, what, file=None, row=None):
        super().__init__(what)
        self.what = " ".join(str(what).split())
        self.file = file
        self.row = row

    def __str__(self):
        place = [str(self.file)] if self.file is not None else []
        if self.row is not None:
            place.append(f"row {self.row}")
        return ": ".join([*place, self.what])


def count_of(number, noun):
    """A number of things, as in 1 row and 2 rows; `noun` is of one."""
    return f"{number} {noun}" if number == 1 else f"{number} {noun[:-1]}ies" if noun.endswith("y") else f"{number} {noun}s"


def need(module, what_for):
    """Imports a module that only some commands want; a SkyqError names its Debian package if it is missing."""
    try:
        return importlib.import_module(module)
    except ImportError:
        root = module.split(".")[0]
        raise SkyqError(f"{what_for} needs {root}: apt-get install {PACKAGES.get(root, root)}") from None
