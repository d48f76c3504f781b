#!/usr/bin/env python3
"""Tests which program the launcher runs, and what scripts/release accepts, on a copy of the sources in a temporary folder.

    scripts/check_release.py

In the copy small scripts take the place of the program and of the toolchain, so that nothing is proved or built. The hash of
the sources is computed here once more, by other means. It also compares the man page with `qserv --help` and docs/FORMATS.md,
has mandoc read the page where there is mandoc, and, if release/ is of these sources, runs its program in the copy, with no
toolchain, over the files of examples/. It prints a line for each fact that does not hold, and then how many it has tried. The
status is 0 if all hold. It writes nothing outside the temporary folder.
"""
import argparse
import concurrent.futures
import hashlib
import os
import re
import resource
import shutil
import subprocess
import sys
import tempfile
import time

ROOT = os.path.realpath(os.path.join(os.path.dirname(os.path.abspath(__file__)), ".."))
FILES = ["qserv", "scripts", "crates.txt", "HANDLES", "docs/qserv.1", "docs/FORMATS.md"]
# With no words it is wrong usage, as of the program. Each has a name in its first line, which is a byte of it.
PROGRAM = "#!/bin/sh\n[ $# -gt 0 ] || exit 2\necho {}: $*\n"
PROGRAM_NAME = "qserv-x86-64-v2"
LINE = "kit-of-the-test logic 0123456789abcdef"

# The toolchain of the test. `ci` notes the files that it is called over, and leaves libraries and a program; `all` and `run` work
# over what is kept.
RT = """#!/bin/sh
case $1 in
    version) echo "{line}" ;;
    doc) echo "{kit}/START-HERE.md" ;;
    ci)
        find . -type f | sort >"{kit}/tree"
        echo built >>"{kit}/built"
        for crate in crates/*; do
            mkdir -p "$crate/out/rlib/${{crate#crates/}}.rlib"
            echo "== ${{crate#crates/}}"
        done
        cp "{kit}/program" crates/qserv_cli/out/qserv_cli
        ;;
    all)
        echo "kept" >>"{kit}/built"
        echo "== qserv_cli"
        ;;
    run)
        mkdir -p out
        cp "{kit}/program" out/qserv_cli
        echo "rt: running out/qserv_cli"
        ;;
    *) exit 1 ;;
esac
"""
# Its compiler, which says that all is proved, and its linker: each makes the file that its word -o names.
TOOL = """#!/bin/sh
echo "logic=proved functions=1"
while [ $# -gt 1 ]; do
    if [ "$1" = -o ]; then rm -rf "$2"; cp "{kit}/program" "$2"; fi
    shift
done
"""


def processor_seconds():
    """What the programs that have ended so far used."""
    used = resource.getrusage(resource.RUSAGE_CHILDREN)
    return used.ru_utime + used.ru_stime


def write(path, text, mode=0o644):
    os.makedirs(os.path.dirname(path), exist_ok=True)
    with open(path, "wb") as file:
        file.write(text.encode() if isinstance(text, str) else text)
    os.chmod(path, mode)


def read(path):
    with open(path, "rb") as file:
        return file.read()


def change_byte(path, at=-2):
    """Changes one byte of a file, and neither its length nor the time that it says it was written at."""
    data, was = bytearray(read(path)), os.stat(path)
    data[at] ^= 1
    with open(path, "wb") as file:
        file.write(data)
    os.utime(path, ns=(was.st_atime_ns, was.st_mtime_ns))


# ---- the sources, by other means than scripts/sources


def program_crates(root, program="qserv_cli"):
    """The crates that a program depends on, by crates.txt, itself among them."""
    needs = {}
    with open(f"{root}/crates.txt", encoding="utf-8") as file:
        for line in file:
            head, is_row, below = line.partition("#")[0].partition(":")
            if is_row:
                needs[head.split()[0]] = below.split()
    found, left = set(), [program]
    while left:
        name = left.pop()
        if name in needs and name not in found:
            found.add(name)
            left += needs[name]
    return found


def source_files(root, program="qserv_cli"):
    found = ["crates.txt", "HANDLES"]
    for crate in program_crates(root, program):
        for at, folders, files in os.walk(f"{root}/crates/{crate}"):
            if at == f"{root}/crates/{crate}" and "out" in folders:
                folders.remove("out")
            found += [os.path.relpath(f"{at}/{name}", root) for name in files]
    return sorted(found, key=str.encode)


def blake(data):
    return hashlib.blake2b(data, digest_size=32).hexdigest()


def source_hash(root, program="qserv_cli"):
    lines = [f"{blake(read(f'{root}/{name}'))}  {name}\n" for name in source_files(root, program)]
    return blake("".join(lines).encode())


# ---- the copy


class Copy:
    """A copy of the sources with a release of its own, whose program is the script above."""

    def __init__(self, folder):
        self.root, self.kit = f"{folder}/copy", f"{folder}/kit"
        for name in FILES:
            to = f"{self.root}/{name}"
            os.makedirs(os.path.dirname(to), exist_ok=True)
            (shutil.copytree if os.path.isdir(f"{ROOT}/{name}") else shutil.copy2)(f"{ROOT}/{name}", to)
        for crate in program_crates(ROOT) | program_crates(ROOT, "qserv_serve"):
            here = f"{ROOT}/crates/{crate}"
            skip = lambda at, names, here=here: ["out"] * (at == here)
            shutil.copytree(here, f"{self.root}/crates/{crate}", ignore=skip)
        self.hash = source_hash(self.root)
        self.write_release(PROGRAM.format("release"))
        write(f"{self.kit}/program", PROGRAM.format("built"), 0o755)
        write(f"{self.kit}/bin/rt", RT.format(line=LINE, kit=self.kit), 0o755)
        for tool in ("rattle", "rattle-link"):
            write(f"{self.kit}/bin/{tool}", TOOL.format(kit=self.kit), 0o755)
        # no folder of the caller's path that has a toolchain
        paths = [it for it in os.environ["PATH"].split(":") if not os.path.exists(f"{it}/rt")]
        self.path = ":".join(paths)

    def write_release(self, text):
        shutil.rmtree(f"{self.root}/release", ignore_errors=True)
        self.write_program("release", text, self.hash)

    def write_program(self, folder, text, sources):
        write(f"{self.root}/{folder}/{PROGRAM_NAME}", text, 0o755)
        sum_of = hashlib.sha256(read(f"{self.root}/{folder}/{PROGRAM_NAME}")).hexdigest()
        self.write_source(f"sources {sources}\ntoolchain {LINE}\n{PROGRAM_NAME} {sum_of}\n", folder)

    def write_source(self, text, folder="release"):
        write(f"{self.root}/{folder}/SOURCE", text)

    def run(self, *words, has_kit=False, **more):
        """The status, the output and standard error of a command in the copy."""
        path = f"{self.kit}/bin:{self.path}" if has_kit else self.path
        env = {"PATH": path, "HOME": self.root, "TMPDIR": os.path.dirname(self.root), **more}
        ran = subprocess.run(words, cwd=self.root, env=env, capture_output=True, text=True, stdin=subprocess.DEVNULL)
        return ran.returncode, ran.stdout, ran.stderr

    def runs_release(self):
        return self.run("./qserv", "a", "b") == (0, "release: a b\n", "")

    def is_refused(self):
        """Whether no program runs: there is no toolchain to build one."""
        status, out, err = self.run("./qserv", "a", "b")
        return status == 1 and out == "" and "the Rattle toolchain is missing" in err

    def forget(self):
        path = f"{self.root}/.qserv"
        if os.path.isdir(path):
            shutil.rmtree(path)
        elif os.path.exists(path):
            os.remove(path)


# ---- facts, as (what holds, whether it does)


def facts_of_sources(copy):
    elsewhere = copy.run("scripts/sources", "hash", CDPATH="/")
    yield "it is of this tree, whatever the caller's CDPATH is", elsewhere == (0, copy.hash + "\n", "")
    yield "the hash is the one that is stated", copy.run("scripts/sources", "hash") == (0, copy.hash + "\n", "")
    yield "the crates are those below the program", set(copy.run("scripts/sources", "crates")[1].split()) == program_crates(ROOT)
    yield "--check accepts a release of these sources", copy.run("scripts/release", "--check")[0] == 0


def facts_of_a_fresh_copy(copy):
    yield "a fresh copy runs the program of the release, and says nothing", copy.runs_release()
    yield "it keeps a stamp", read(f"{copy.root}/.qserv/stamp") == b"release\n"
    yield "it runs it again", copy.runs_release()
    status, out, _ = copy.run("./qserv", "--version")
    yield "--version says of which sources the program is", status == 0 and f"{copy.hash}, which are these\n" in out and LINE in out
    copy.forget()
    with concurrent.futures.ThreadPoolExecutor(8) as pool:
        ended = [it.result() for it in [pool.submit(copy.runs_release) for _ in range(8)]]
    left = os.listdir(f"{copy.root}/.qserv")
    yield f"eight calls at one time all run it, and leave no file of their own: {left}", all(ended) and set(left) == {"stamp", "qserv"}
    kept = f"{copy.root}/.qserv/qserv"
    yield "the program in .qserv is a copy of it", not os.path.islink(kept) and read(kept) == PROGRAM.format("release").encode()
    copy.forget()
    write(f"{copy.root}/.qserv", "no folder")
    yield "it runs where no stamp can be kept", copy.runs_release()
    copy.forget()


def facts_of_changed_sources(copy):
    """One byte, the length and the time of writing as before; with a stamp and without one."""
    parts = ["crates/sky_vector/src/lib.rt", "crates.txt", "HANDLES", "crates/qserv_cli/stdout"]
    parts += [next(it for it in source_files(copy.root) if f"/{part}/" in it) for part in ("specs", "proofs", "mutants")]
    for name in parts:
        path = f"{copy.root}/{name}"
        yield f"{name}: as it was, the release runs", copy.runs_release()
        change_byte(path)
        yield f"{name}: one byte changed, it does not", copy.is_refused()
        copy.forget()
        yield f"{name}: nor without a stamp", copy.is_refused()
        yield f"{name}: --check refuses", copy.run("scripts/release", "--check")[0] == 1
        change_byte(path)


def facts_of_other_files(copy):
    more, fewer = f"{copy.root}/crates/sky_vector/src/more.rt", f"{copy.root}/crates/sky_vector/src/lib.rt"
    yield "before a file comes, the release runs", copy.runs_release()
    write(more, "")
    yield "a file more is another source", copy.is_refused()
    os.remove(more)
    yield "without it the release runs", copy.runs_release()
    os.rename(fewer, f"{copy.root}/lib.rt")
    yield "a file fewer is another source", copy.is_refused()
    os.rename(f"{copy.root}/lib.rt", fewer)
    yield "with it the release runs", copy.runs_release()
    write(f"{copy.root}/crates/sky_vector/out/kept", "x")
    write(f"{copy.root}/crates/beside/src/lib.rt", "x")
    yield "a file of out/ and one of another crate do not count", copy.runs_release()
    shutil.rmtree(f"{copy.root}/crates/sky_vector/out")
    shutil.rmtree(f"{copy.root}/crates/beside")


def facts_of_changed_programs(copy):
    program = f"{copy.root}/release/{PROGRAM_NAME}"
    yield "the release runs before its program changes", copy.runs_release()
    change_byte(program)
    yield "a changed byte of the program: it does not run", copy.is_refused()
    status, out, _ = copy.run("scripts/release", "--compare", has_kit=True)
    yield "and --compare fails", status == 1 and "has not the sum" in out
    change_byte(program)
    yield "mended, it runs", copy.runs_release()


def compared(copy, status, words):
    ended, out, _ = copy.run("scripts/release", "--compare", has_kit=True)
    return ended == status and words in out


def facts_of_the_check(copy):
    gate, source = f"{copy.root}/crates/qserv_cli/out/qserv_cli", read(f"{copy.root}/release/SOURCE").decode()
    yield "--compare fails where nothing was built", compared(copy, 1, "is not the program that rt ci has built")
    write(gate, PROGRAM.format("release"), 0o755)
    yield "--compare accepts what was built", compared(copy, 0, "release: ok\n")
    change_byte(gate)
    yield "--compare fails where another program was built", compared(copy, 1, "is not the program that rt ci has built")
    copy.write_source(source.replace(LINE, "another kit"))
    yield "--compare only warns of another toolchain", compared(copy, 0, "warning: it is of another toolchain")
    copy.write_source(source.replace(copy.hash, "0" * 64))
    yield "--compare only warns of other sources", compared(copy, 0, "warning: it is of other sources")
    copy.write_source(source + f"qserv-x86-64-v3 {'0' * 64}\n")
    yield "--compare fails where SOURCE names a program that is not there", compared(copy, 1, "names other programs")
    copy.write_source(source)
    shutil.rmtree(f"{copy.root}/crates/qserv_cli/out")


def facts_of_writing(copy):
    out = f"{copy.root}/crates/qserv_cli/out"
    yield "scripts/release wants a program of rt ci", copy.run("scripts/release", has_kit=True)[0] == 1
    write(f"{out}/qserv_cli", PROGRAM.format("gate"), 0o755)
    write(f"{out}/stdout", "")
    status, said, _ = copy.run("scripts/release", has_kit=True)
    yield "scripts/release writes what rt ci has left", status == 0 and copy.hash in said
    yield "which then runs", copy.run("./qserv", "a")[:2] == (0, "gate: a\n")
    yield "and compares", compared(copy, 0, "release: ok")
    time.sleep(0.05)
    os.utime(f"{copy.root}/HANDLES")
    yield "scripts/release refuses a program older than a source", copy.run("scripts/release", has_kit=True)[0] == 1
    shutil.rmtree(out)
    copy.write_release(PROGRAM.format("release"))


def facts_of_building(copy):
    """The toolchain of the test takes the place of the true one."""
    path, built = f"{copy.root}/crates/sky_vector/src/lib.rt", f"{copy.kit}/built"
    yield "with a toolchain too, the release runs", copy.run("./qserv", "a", has_kit=True)[1] == "release: a\n"
    change_byte(path)
    status, out, err = copy.run("./qserv", "a", has_kit=True)
    all_crates = len(program_crates(ROOT))
    yield "changed sources are built, and run", (status, out) == (0, "built: a\n") and f"crate {all_crates} of {all_crates}: " in err
    tree = read(f"{copy.kit}/tree").decode().split()
    crates = {name.split("/")[2] for name in tree if name.startswith("./crates/")}
    yield "of the program's crates alone", crates == program_crates(ROOT)
    tests = [name for name in tree if name.endswith(".rt") and re.search(r"/tests(\.rt|/)", name)]
    yield "without tests and mutants", not tests and not [name for name in tree if "/mutants/" in name]
    yield "what was built runs again without the toolchain", copy.run("./qserv", "a") == (0, "built: a\n", "")
    yield "and was built once", read(built) == b"built\n"
    version = copy.run("./qserv", "--version")[1]
    yield "--version names its sources", f"{source_hash(copy.root)}, which are these" in version
    change_byte(path)
    yield "the sources as they were, the release runs", copy.runs_release()
    yield "QSERV_BUILD=1 builds in any case", copy.run("./qserv", "a", has_kit=True, QSERV_BUILD="1")[1] == "built: a\n"
    yield "which is a second time", read(built) == b"built\nbuilt\n"
    yield "and the program that was built here goes first", copy.run("./qserv", "a") == (0, "built: a\n", "")
    copy.forget()


def facts_of_building_over_kept_work(copy):
    built, crates = f"{copy.kit}/built", program_crates(ROOT) - {"qserv_cli"}
    for crate in crates:
        write(f"{copy.root}/crates/{crate}/out/rlib/stamp", "")
    write(built, "")
    status, out, _ = copy.run("./qserv", "a", has_kit=True, QSERV_BUILD="1")
    yield "where each library is kept, it is built over these", (status, out) == (0, "built: a\n") and read(built) == b"kept\n"
    os.remove(f"{copy.root}/crates/sky_vector/out/rlib/stamp")
    write(built, "")
    yield "and else anew", copy.run("./qserv", "a", has_kit=True, QSERV_BUILD="1")[0] == 0 and read(built) == b"built\n"
    write(f"{copy.kit}/program", "#!/bin/sh\nexit 3\n", 0o755)
    status, out, _ = copy.run("./qserv", "a", has_kit=True, QSERV_BUILD="1")
    yield "a program that does not run is not taken", out != "built: a\n"
    write(f"{copy.kit}/program", PROGRAM.format("built"), 0o755)
    for crate in crates | {"qserv_cli"}:
        shutil.rmtree(f"{copy.root}/crates/{crate}/out", ignore_errors=True)
    copy.forget()


def facts_of_installing(copy):
    prefix = f"{os.path.dirname(copy.root)}/prefix"
    yield "install wants a prefix", copy.run("./qserv", "install")[0] == 2
    yield "install installs", copy.run("./qserv", "install", prefix)[0] == 0
    wanted = ["bin/qserv", f"lib/qserv/{PROGRAM_NAME}", "lib/qserv/SOURCE", "share/man/man1/qserv.1"]
    wanted += ["share/bash-completion/completions/qserv"]
    there = [os.path.relpath(f"{at}/{name}", prefix) for at, _, names in os.walk(prefix) for name in names]
    yield "these files", sorted(there) == sorted(wanted)
    yield "what is installed runs", copy.run(f"{prefix}/bin/qserv", "a", "b") == (0, "release: a b\n", "")
    yield "it has a help", "qserv load SKY CSV" in copy.run(f"{prefix}/bin/qserv", "--help")[1]
    yield "it says of which sources it is", f"its sources: {copy.hash}\n" in copy.run(f"{prefix}/bin/qserv", "--version")[1]
    change_byte(f"{prefix}/lib/qserv/{PROGRAM_NAME}")
    yield "with a byte changed it says nothing of its sources", copy.run(f"{prefix}/bin/qserv", "--version")[:2] == (1, "qserv 0.1.0\n")
    change_byte(f"{copy.root}/release/{PROGRAM_NAME}")
    yield "a changed program is not installed", copy.run("scripts/install", "release", prefix)[0] == 1
    change_byte(f"{copy.root}/release/{PROGRAM_NAME}")


def facts_of_serve(copy):
    """The second program: its folder, its sources, and how it is installed."""
    words, prefix = ["./qserv", "serve", "a", "b", "0"], f"{os.path.dirname(copy.root)}/prefix_of_serve"
    status, out, err = copy.run(*words)
    yield "with no program of serve it says so", (status, out) == (1, "") and "no program of serve is of these sources" in err
    yield "and the first program still runs", copy.runs_release()
    yield "whatever QSERV_CRATE is", copy.run("./qserv", "a", QSERV_CRATE="qserv_serve")[1] == "release: a\n"
    yield "--version says that there is none", "no program of serve is of these sources\n" in copy.run("./qserv", "--version")[1]
    status, _, err = copy.run("./qserv", "install", prefix)
    yield "it is installed without serve, with a line", status == 0 and "install: without serve: " in err
    copy.write_program("release/serve", PROGRAM.format("serve"), copy.hash)
    yield "a program of other sources does not run", copy.run(*words)[0] == 1
    copy.run("./qserv", "install", prefix)
    yield "nor is it installed", not os.path.exists(f"{prefix}/lib/qserv/serve")
    copy.write_program("release/serve", PROGRAM.format("serve"), source_hash(copy.root, "qserv_serve"))
    yield "one of these sources runs, without the word serve", copy.run(*words) == (0, "serve: a b 0\n", "")
    yield "it keeps a stamp of its own", read(f"{copy.root}/.qserv/serve/stamp") == b"release/serve\n"
    yield "it runs it again", copy.run(*words)[1] == "serve: a b 0\n"
    yield "and the first program too", copy.runs_release()
    yield "--version names it", f"program of serve: {copy.root}/release/serve/{PROGRAM_NAME}\n" in copy.run("./qserv", "--version")[1]
    yield "it is installed", copy.run("./qserv", "install", prefix)[0] == 0
    yield "and runs", copy.run(f"{prefix}/bin/qserv", *words[1:]) == (0, "serve: a b 0\n", "")
    change_byte(f"{copy.root}/release/serve/{PROGRAM_NAME}")
    yield "changed, it does not run", copy.run(*words)[0] == 1
    yield "nor is it installed then", copy.run("scripts/install", "release", prefix)[0] == 1
    shutil.rmtree(f"{copy.root}/release/serve")
    copy.run("./qserv", "install", prefix)
    yield "a later install without it takes the earlier one away", not os.path.exists(f"{prefix}/lib/qserv/serve")
    copy.forget()


def facts_of_the_man_page(copy):
    page, formats = read(f"{copy.root}/docs/qserv.1").decode(), read(f"{copy.root}/docs/FORMATS.md").decode()
    commands = set(re.findall(r"^\.It Cm (\w+) Ar (.*)$", page, re.M))
    shown = set(re.findall(r"^  qserv (\w+) ([A-Z ]+?)(?:   .*)?$", copy.run("./qserv", "--help")[1], re.M))
    yield "the man page has the commands of --help", commands == shown and len(commands) == 10
    synopsis = page[page.index(".Sh SYNOPSIS") : page.index(".Sh DESCRIPTION")]
    yield "and the synopsis too", set(re.findall(r"^\.Cm (\w+)\n\.Ar (.*)$", synopsis, re.M)) == shown
    words = set(re.findall(r"^\| `(\w+) ([A-Z ]+)` \|", formats, re.M))
    yield "which are those of FORMATS and install", words | {("install", "PREFIX")} == shown
    ends = page[page.index(".Sh EXIT STATUS") : page.index(".Sh EXAMPLES")]
    told = {number: words.rstrip(".").lower() for number, words in re.findall(r"^\.It (\d+)\n(.*)$", ends, re.M)}
    wanted = {number: words for words, number in re.findall(r"^\| ([a-z ]+) \| (\d+) \|", formats, re.M)}
    yield "its statuses are those of FORMATS", len(wanted) == 11 and all(told.get(it, "").startswith(wanted[it]) for it in wanted)
    if shutil.which("mandoc"):
        lint = copy.run("mandoc", "-Tlint", "-W", "style", "docs/qserv.1")
        yield f"mandoc finds nothing: {lint[1]}", lint[:2] == (0, "")


def facts_of_the_release(copy):
    """The true program in a copy of the sources that has never run anything."""
    if subprocess.run([f"{ROOT}/scripts/release", "--check"]).returncode:
        print("check_release: there is no release of these sources, so its program is not run")
        return
    shutil.rmtree(f"{copy.root}/release")
    shutil.copytree(f"{ROOT}/release", f"{copy.root}/release")
    shutil.copytree(f"{ROOT}/examples", f"{copy.root}/examples")
    copy.forget()
    words = ["query", "examples/sky.txt", "examples/catalogue.csv", "examples/script.sql", "3"]
    began, used = time.monotonic(), processor_seconds()
    ended = copy.run("./qserv", *words)
    seconds, used = time.monotonic() - began, processor_seconds() - used
    yield "a fresh copy answers the example", ended == (0, read(f"{ROOT}/examples/transcript.txt").decode(), "")
    # the clock on the wall is that of a machine that may be busy
    yield f"in under a second of processor time: {used:.2f} ({seconds:.2f} on the wall)", used < 1


FACTS = [
    facts_of_sources,
    facts_of_a_fresh_copy,
    facts_of_changed_sources,
    facts_of_other_files,
    facts_of_changed_programs,
    facts_of_the_check,
    facts_of_writing,
    facts_of_building,
    facts_of_building_over_kept_work,
    facts_of_installing,
    facts_of_serve,
    facts_of_the_man_page,
    facts_of_the_release,
]


def main():
    argparse.ArgumentParser(description=__doc__, formatter_class=argparse.RawDescriptionHelpFormatter).parse_args()
    if not shutil.which("b2sum"):
        print("check_release: skipped: there is no b2sum")
        return 0
    tried, failed = 0, 0
    with tempfile.TemporaryDirectory() as folder:
        copy = Copy(folder)
        for facts in FACTS:
            for what, holds in facts(copy):
                tried, failed = tried + 1, failed + (not holds)
                if not holds:
                    print(f"check_release: {facts.__name__}: does not hold: {what}")
    print(f"check_release: {'not ok' if failed else 'ok'}, {tried} facts")
    return 1 if failed else 0


if __name__ == "__main__":
    sys.exit(main())
