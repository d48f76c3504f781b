#!/usr/bin/env python3
"""Runs the built program under checkers of memory and of threads, over the example and random scripts.

    scripts/memory_checkers.py [PROGRAM] [--threads] [--scripts N] [--seed SEED] [--workers N ..] [--processes N]
    scripts/memory_checkers.py [PROGRAM] --why

The example is reported, explained, answered by `query`, by `classes` and by `sources` and traced with each number of workers, a small
demo is drawn, and a journal is checked. Then come N (200) random scripts that wait and cancel, each over a world of its own
(`random_sessions.py`, `random_children.py`), with each number of workers, by `query`, by `classes` and by `sources` in turns.

PROGRAM is the built program, by default crates/qserv_cli/out/qserv_cli, where the whole check leaves it. It runs under valgrind's
memcheck, with 0, 2 and 16 workers. Whatever memcheck reports fails: a read or a write outside of what was allocated, a decision
on bytes that no one wrote, a block freed twice, and at the end a block that nothing points to any more.

With --threads, PROGRAM is what `scripts/program_for x86-64-v2 . PROGRAM threads` makes, and runs by itself, with 2 and 16 workers.
It is the same proved code, compiled for ThreadSanitizer, which looks at each access to memory and each atomic step. Whatever it
reports fails: two accesses of two threads to one place, one of them a write, that no atomic step and no begin or end of a thread
puts in order.

Nothing is suppressed, in either way.

Valgrind's checkers of threads, helgrind and drd, cannot judge this program. They know the locks of pthreads alone. The program's
lock is an atomic word, so they report what it guards: a hundred places and more in the example, all in functions that enter or
leave the lock. --why shows the cause. It counts their reports over the example, and over a counter in C whose lock is one word,
which is right and is reported too. ThreadSanitizer reports nothing there, but does so if the step that frees the lock orders
nothing any more.

It prints the first runs that failed, and how many it made; the status is 0 where none failed, and 1 else. Without valgrind, or
with --why without clang, it says so and ends with 0. Memcheck takes some seconds of a processor a run, and none of it is part of
the whole check. It writes into a temporary folder alone.
"""
import argparse
import concurrent.futures
import os
import random
import re
import shutil
import subprocess
import sys
import tempfile

import compare_answers
import random_children
import random_sessions
import worked_runs

HERE = os.path.dirname(os.path.abspath(__file__))
PROGRAM = os.path.join(HERE, "..", "crates", "qserv_cli", "out", "qserv_cli")
EXAMPLES = os.path.join(HERE, "..", "examples")
EXAMPLE = {"sky": "sky.txt", "csv": "catalogue.csv", "script": "script.sql", "measured": "sources.csv", "joins": "sources.sql"}
# the status of a run of which a checker reports anything; the program has no such status
REPORTED = 99
MEMCHECK = ["valgrind", "-q", f"--error-exitcode={REPORTED}", "--leak-check=full", "--errors-for-leak-kinds=definite,indirect"]
SANITIZER = {**os.environ, "TSAN_OPTIONS": f"exitcode={REPORTED}"}
# what a program has in it that was compiled for ThreadSanitizer
INSTRUMENTED = b"__tsan_init"
# two threads count to 2,000 under a lock that is one word, 1 while it is held
COUNTER = r"""
#include <pthread.h>
#include <sched.h>
#include <stdatomic.h>

static atomic_ulong word;
static unsigned long count;

static void *work(void *none) {
    for (int turn = 0; turn < 1000; turn++) {
        unsigned long is_free = 0;
        while (!atomic_compare_exchange_strong_explicit(&word, &is_free, 1, memory_order_acquire, memory_order_relaxed)) {
            is_free = 0;
            sched_yield();
        }
        count++;
        atomic_store_explicit(&word, 0, memory_order_release);
    }
    return none;
}

int main(void) {
    pthread_t other;
    if (pthread_create(&other, NULL, work, NULL)) return 2;
    work(NULL);
    pthread_join(other, NULL);
    return count != 2000;
}
"""
# far more seconds than a run takes, and how many runs that failed are printed
SECONDS, SHOWN = 3600, 20


def failed(checker, program, folder, words):
    """What is wrong with a run, or None."""
    ended = subprocess.run([*checker, program, *words], cwd=folder, env=SANITIZER, capture_output=True, timeout=SECONDS)
    if (ended.returncode, ended.stderr) == (0, b""):
        return None
    return f"{' '.join(words)}: status {ended.returncode}, {ended.stderr.decode('latin-1')[:2000]}"


def asked(workers, command="query"):
    """The words of a command that asks for answers, or for the journal, with each number of workers."""
    return [[command, "sky", "csv", "script", str(number)] for number in workers]


def worlds(words, folder):
    """The runs, each with its folder: over the example, and over random worlds."""
    first = os.path.join(folder, "example")
    os.mkdir(first)
    for name, source in EXAMPLE.items():
        shutil.copyfile(os.path.join(EXAMPLES, source), os.path.join(first, name))
    compare_answers.write(first, {"journal": worked_runs.BOARD})
    forms = [["load", "sky", "csv"], ["explain", "sky", "csv", "script"], ["check", "journal"]]
    forms += [form for command in ("query", "classes", "trace") for form in asked(words.workers, command)]
    forms += [["sources", "sky", "csv", "measured", "joins", str(number)] for number in words.workers]
    yield from ((first, form) for form in [*forms, *(["demo", "300", "7", str(number)] for number in words.workers)])
    for number in range(words.scripts):
        draw, own = random.Random(f"{words.seed} {number}"), os.path.join(folder, str(number))
        os.mkdir(own)
        command = ("query", "classes", "sources")[number % 3]
        kind = random_children.CHILDREN if command == "sources" else random_sessions.OBJECTS
        world, texts = kind.world(draw, number)
        compare_answers.write(own, {**texts, "script": random_sessions.script_of(draw, world, kind.asker)})
        yield from ((own, [command, *kind.texts, str(workers)]) for workers in words.workers)


# ---- why helgrind and drd do not serve


def places(tool, program, folder, words):
    """How many places in the program a checker of valgrind reports."""
    ended = subprocess.run(["valgrind", f"--tool={tool}", program, *words], cwd=folder, capture_output=True, text=True)
    return int(re.search(r"ERROR SUMMARY: \d+ errors from (\d+) contexts", ended.stderr)[1])


def counter(folder, text, *flags):
    """The counter, compiled."""
    source, made = os.path.join(folder, "counter.c"), os.path.join(folder, "counter")
    with open(source, "w", encoding="ascii") as file:
        file.write(text)
    subprocess.run(["clang", "-O1", "-pthread", *flags, "-o", made, source], check=True)
    return made


def races(program):
    """How many races ThreadSanitizer reports in a program that is compiled for it."""
    return subprocess.run([program], env=SANITIZER, capture_output=True, text=True).stderr.count("WARNING: ThreadSanitizer: data race")


def show_why(program):
    """Prints the counts of reports, and returns 0 if they are as the head says."""
    with tempfile.TemporaryDirectory() as folder:
        for name, source in EXAMPLE.items():
            shutil.copyfile(os.path.join(EXAMPLES, source), os.path.join(folder, name))
        reported = []
        for tool in ("helgrind", "drd"):
            seen = [places(tool, program, folder, words) for words in asked([2, 16])]
            reported.append(places(tool, counter(folder, COUNTER), folder, []))
            print(f"{tool}: {seen[0]} places in the example with 2 workers, {seen[1]} with 16; {reported[-1]} in the counter")
        right = races(counter(folder, COUNTER, "-fsanitize=thread"))
        wrong = races(counter(folder, COUNTER.replace("memory_order_release", "memory_order_relaxed"), "-fsanitize=thread"))
    print(f"ThreadSanitizer: {right} races in the counter, {wrong} if the step that frees its lock orders nothing")
    return 0 if all(reported) and wrong and not right else 1


def is_instrumented(program):
    with open(program, "rb") as file:
        return INSTRUMENTED in file.read()


def main():
    parser = argparse.ArgumentParser(description=__doc__, formatter_class=argparse.RawDescriptionHelpFormatter)
    parser.add_argument("program", nargs="?", default=PROGRAM)
    parser.add_argument("--threads", action="store_true")
    parser.add_argument("--why", action="store_true")
    parser.add_argument("--scripts", type=int, default=200)
    parser.add_argument("--seed", type=int, default=1)
    parser.add_argument("--workers", type=int, nargs="+")
    parser.add_argument("--processes", type=int, default=os.cpu_count())
    words = parser.parse_args()
    program = os.path.abspath(words.program)
    words.workers = words.workers or ([2, 16] if words.threads else [0, 2, 16])
    lacking = [tool for tool in ["valgrind"] * (not words.threads) + ["clang"] * words.why if shutil.which(tool) is None]
    if lacking:
        print(f"memory_checkers: skipped: {' and '.join(lacking)} not on the PATH")
        return 0
    if not (os.path.isfile(program) and os.access(program, os.X_OK)):
        print(f"memory_checkers: there is no built program at {os.path.relpath(program)}")
        return 1
    if words.why:
        return show_why(program)
    if is_instrumented(program) != words.threads:
        print(f"memory_checkers: {os.path.relpath(program)} is {'not ' * words.threads}compiled for ThreadSanitizer")
        return 1
    checker = [] if words.threads else MEMCHECK
    with tempfile.TemporaryDirectory() as folder, concurrent.futures.ThreadPoolExecutor(words.processes) as pool:
        jobs = [pool.submit(failed, checker, program, own, form) for own, form in worlds(words, folder)]
        wrong = 0
        for job in jobs:
            told = job.result()
            wrong += told is not None
            if told and wrong <= SHOWN:
                print(f"memory_checkers: {told}", flush=True)
    print(f"memory_checkers: {'not ok' if wrong else 'ok'}, {len(jobs)} runs over the example and {words.scripts} scripts, {wrong} failed")
    return 1 if wrong else 0


if __name__ == "__main__":
    sys.exit(main())
