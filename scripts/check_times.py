#!/usr/bin/env python3
"""Proves everything anew and prints what each crate cost: seconds of processor time for its proof and its tests. The mutants of all
crates are checked together, and are the row `all_copies`.

    scripts/check_times.py [--every SECONDS]

It runs `rt ci` at the top of the repository, with `--anew` if the toolchain has that flag, so what an earlier run has kept counts
for nothing, and then scripts/try_mutants.py. Every half second it inspects the provers that run below it, each with the processes
that help it, which are called by the same words. A prover's last reading counts, so that a run shorter than that is missed. Whatever else runs meanwhile is not counted, but makes all
slower. The check's own lines go to standard error, the table to standard output, dearest crate first. It ends with the
check's status and writes nothing else. Linux alone, since it reads /proc.
"""
import argparse
import collections
import os
import subprocess
import sys
import time

TICKS = os.sysconf("SC_CLK_TCK")
KINDS = ("proof", "tests", "mutants")

# a process that runs: the number of its parent, when it began, its words, and its seconds with those of its ended children
Process = collections.namedtuple("Process", "parent began words seconds")


def processes():
    """The processes of the machine, by their numbers."""
    found = {}
    for name in os.listdir("/proc"):
        if not name.isdigit():
            continue
        try:
            with open(f"/proc/{name}/cmdline", "rb") as file:
                words = file.read().decode(errors="replace").split("\0")
            with open(f"/proc/{name}/stat", encoding="utf-8", errors="replace") as file:
                fields = file.read().rpartition(")")[2].split()
        except OSError:
            continue
        # user and system time, and those of children that have ended
        seconds = sum(int(field) for field in fields[11:15]) / TICKS
        found[int(name)] = Process(int(fields[1]), fields[19], words, seconds)
    return found


def is_prover(process):
    return os.path.basename(process.words[0]) == "rattle" and "--crate-name" in process.words


def line_to(found, number, top):
    """The processes from one up to another that it runs below, or nothing where it does not."""
    line = []
    while number in found and number != top:
        line.append(number)
        number = found[number].parent
    return line if number == top else []


def provers(top):
    """The provers that run below a process, as (number, when it began), with their words and their seconds. What helps a prover
    runs below it, and counts as a part of it."""
    found = processes()
    words, seconds = {}, collections.Counter()
    for number, process in found.items():
        above = [at for at in line_to(found, number, top) if is_prover(found[at])]
        if above and above[0] == number:
            first = above[-1], found[above[-1]].began
            words[first] = found[above[-1]].words
            seconds[first] += process.seconds
    return [(first, words[first], seconds[first]) for first in words]


def kind_of(words):
    """What a prover's call is for: mutants are checked and no library is written; a library is built, and a program is checked
    into a file that its compilers take."""
    if "check" in words[1:2] and "-o" not in words:
        return "mutants"
    return "tests" if "--test" in words else "proof"


def watch(check, pause):
    """The seconds of each prover while the check runs, by (prover, crate, kind)."""
    seen = collections.Counter()
    while check.poll() is None:
        for first, words, seconds in provers(check.pid):
            key = first, words[words.index("--crate-name") + 1], kind_of(words)
            # what helped a prover and has ended is counted nowhere until the prover has asked for its end
            seen[key] = max(seen[key], seconds)
        time.sleep(pause)
    return seen


def anew():
    """The flag that has everything proved again; a toolchain that keeps nothing has none."""
    shown = subprocess.run(["rt", "help"], capture_output=True, text=True, check=False)
    return ["--anew"] if "--anew" in shown.stdout + shown.stderr else []


def table(seen):
    """The lines of the table."""
    cost = collections.defaultdict(lambda: dict.fromkeys(KINDS, 0.0))
    for (_, crate, kind), seconds in seen.items():
        cost[crate][kind] += seconds
    yield f"{'crate':24}" + "".join(f"{kind:>9}" for kind in KINDS)
    for crate in sorted(cost, key=lambda crate: -sum(cost[crate].values())):
        yield f"{crate:24}" + "".join(f"{cost[crate][kind]:9.0f}" for kind in KINDS)
    sums = [sum(cost[crate][kind] for crate in cost) for kind in KINDS]
    yield f"{'all, minutes':24}" + "".join(f"{seconds / 60:9.1f}" for seconds in sums)


def main():
    words = argparse.ArgumentParser(description=__doc__, formatter_class=argparse.RawDescriptionHelpFormatter)
    words.add_argument("--every", type=float, default=0.5, help="seconds between two looks")
    every = words.parse_args().every
    os.chdir(os.path.join(os.path.dirname(os.path.abspath(__file__)), ".."))
    began = time.time()
    seen, status = collections.Counter(), 0
    for call in (["rt", "ci", *anew()], ["scripts/try_mutants.py"]):
        check = subprocess.Popen(call, stdout=sys.stderr)
        seen.update(watch(check, every))
        status = status or check.returncode
    for line in table(seen):
        print(line)
    print(f"{(time.time() - began) / 60:.1f} minutes by the clock")
    return status


if __name__ == "__main__":
    sys.exit(main())
