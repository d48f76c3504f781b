"""Two runs over pipes, which no file shows: a text that is read in pieces, and an output that takes a part of a write.
scripts/worked_rows.py makes them. Without /proc, as on other systems than Linux, they are left out.
"""
import array
import fcntl
import os
import signal
import subprocess
import termios
import threading
import time

# a pipe of a page, and the number of fcntl that sets its size
PAGE, SET_SIZE = 4096, 1031
# 255 explained queries: more than two buffers of 8,192 bytes
SCRIPT = "SELECT objectId FROM Object\n" * 255
LINES = "chunk: SELECT objectId,objectId FROM Object_c\nmerge: SELECT c1 FROM pieces ORDER BY c2\nchunks: 0 4 7\n"
EXPLAINED = "".join(f"query {number}\n{LINES}" for number in range(1, 256)).encode()
# far more than a part of a run takes
SECONDS = 10


def feed(path, text):
    """Writes a text to a named pipe, 5 bytes at a time, each after a while."""
    with open(path, "wb", buffering=0) as pipe:
        for place in range(0, len(text), 5):
            pipe.write(text[place : place + 5])
            time.sleep(0.001)


def read_in_pieces(program, folder, sky):
    """The status and the output of a run that reads its sky plan from a pipe."""
    path = os.path.join(folder, "pipe")
    os.mkfifo(path)
    writer = threading.Thread(target=feed, args=(path, sky.encode()), daemon=True)
    writer.start()
    run = subprocess.run([program, "load", "pipe", "catalogue.csv"], cwd=folder, capture_output=True, timeout=SECONDS)
    os.remove(path)
    return run.returncode, run.stdout.decode()


def is_in(state, process):
    """Whether the process is in a state: S if it waits, T if it is stopped."""
    with open(f"/proc/{process.pid}/stat", encoding="utf-8", errors="replace") as file:
        return file.read().rpartition(")")[2].split()[0] == state


def wait(condition):
    """Waits until a condition holds, or for a time. Whether it holds."""
    end = time.monotonic() + SECONDS
    while not condition() and time.monotonic() < end:
        time.sleep(0.001)
    return condition()


def held(pipe):
    """How many bytes a pipe holds."""
    count = array.array("i", [0])
    fcntl.ioctl(pipe, termios.FIONREAD, count)
    return count[0]


def break_off(process, pipe):
    """Stops a process that waits to write to a full pipe, and lets it go on: the write ends with the part that was taken."""
    if wait(lambda: held(pipe) == PAGE or process.poll() is not None) and process.poll() is None:
        if wait(lambda: is_in("S", process)):
            process.send_signal(signal.SIGSTOP)
            wait(lambda: is_in("T", process))
            process.send_signal(signal.SIGCONT)


def written_in_parts(program, folder):
    """The status and the output of a run, each of whose writes to a pipe of a page is broken off."""
    with open(os.path.join(folder, "script"), "w", encoding="ascii") as file:
        file.write(SCRIPT)
    out, into = os.pipe()
    fcntl.fcntl(into, SET_SIZE, PAGE)
    words = ["explain", "sky.txt", "catalogue.csv", "script"]
    with subprocess.Popen([program, *words], cwd=folder, stdout=into) as process:
        os.close(into)
        pieces = []
        while not pieces or pieces[-1]:
            break_off(process, out)
            pieces.append(os.read(out, PAGE))
    os.close(out)
    os.remove(os.path.join(folder, "script"))
    return process.returncode, b"".join(pieces)


def wrong(program, folder, sky, report):
    """What is wrong with the two runs, a line each."""
    if not os.path.exists("/proc/self/stat"):
        print("worked_rows: no /proc here: the runs over pipes are left out")
        return
    found = read_in_pieces(program, folder, sky)
    if found != (0, report):
        yield f"a sky plan in pieces: {found}"
    status, told = written_in_parts(program, folder)
    if (status, told) != (0, EXPLAINED):
        yield f"an output in parts: status {status}, {len(told)} bytes of {len(EXPLAINED)}"
