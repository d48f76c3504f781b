"""Writing a catalogue folder: its three files appear together or not at all."""
import os
import re

from skyq_lib.columns import CSV, MOST_BYTES, SIDECAR, SKY
from skyq_lib.errors import SkyqError
from skyq_lib.progress import Progress

BLOCK = 65536                   # rows that are written at a time
FILES = (SKY, CSV, SIDECAR)


def texts(whole, mask, part):
    """A block of a column as strings, or as ints where no value is NULL."""
    if not mask[part].any():
        return whole[part].tolist()
    return ["" if missing else value for value, missing in zip(whole[part].tolist(), mask[part].tolist())]


def write_rows(path, names, arrays):
    """Writes a catalogue's text: arrays has for each name the whole numbers and the mask of the NULLs."""
    rows, form = len(arrays[0][0]), ",".join(["%s"] * len(names)) + "\n"
    with open(path, "w", encoding="ascii", newline="") as file, Progress("write", rows) as bar:
        file.write(",".join(names) + "\n")
        for start in range(0, rows, BLOCK):
            part = slice(start, start + BLOCK)
            file.write("".join([form % row for row in zip(*(texts(whole, mask, part) for whole, mask in arrays))]))
            bar.step(BLOCK)
        size = file.tell()
    if size > MOST_BYTES:
        raise SkyqError(f"{size} bytes of text; the engine takes {MOST_BYTES}: leave columns out with --drop, or round them with --scale")


def is_ours(name):
    """Whether a file's name is one of a catalogue folder, or one that is written beside."""
    return any(name == file or re.fullmatch(re.escape(file) + r"\.new(-[0-9]+)?", name) for file in FILES)


def is_running(process):
    try:
        os.kill(process, 0)
    except ProcessLookupError:
        return False
    except PermissionError:
        pass
    return True


def sweep(folder):
    """Removes what an ingest that was killed has left beside the files."""
    for name in os.listdir(folder):
        number = name.rpartition(".new-")[2]
        if is_ours(name) and number.isdigit() and not is_running(int(number)):
            os.unlink(os.path.join(folder, name))


def replace_files(folder, writers, is_anew=False):
    """Writes files beside those of a folder, each by its function of a path, and renames them in this order; a fault before
    that leaves the folder as it was. With is_anew there is no sidecar, and so no catalogue, while they are renamed."""
    beside = {name: os.path.join(folder, f"{name}.new-{os.getpid()}") for name in writers}
    sidecar = os.path.join(folder, SIDECAR)
    try:
        for name, write in writers.items():
            write(beside[name])
        if is_anew and os.path.exists(sidecar):
            os.unlink(sidecar)
        for name, new in beside.items():
            os.replace(new, os.path.join(folder, name))
    finally:
        for new in beside.values():
            if os.path.exists(new):
                os.unlink(new)


def write_folder(folder, catalogue, plan, names, arrays):
    """Writes the three files beside those of the folder and renames them, the sidecar last; without it there is no catalogue."""
    is_new = not os.path.isdir(folder)
    if is_new:
        os.makedirs(folder)
    sweep(folder)
    try:
        replace_files(folder, {SKY: plan.save, CSV: lambda path: write_rows(path, names, arrays), SIDECAR: catalogue.save}, is_anew=True)
    finally:
        if is_new and not os.listdir(folder):
            os.rmdir(folder)


def judge_folder(folder):
    """Refuses a place that is neither free, nor an empty folder, nor a catalogue folder."""
    if os.path.exists(folder) and not os.path.isdir(folder):
        raise SkyqError("is there and is no folder", folder)
    if os.path.isdir(folder) and os.listdir(folder) and not any(is_ours(name) for name in os.listdir(folder)):
        raise SkyqError("holds other files and is no catalogue folder; name a new one", folder)
