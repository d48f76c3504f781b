"""A pool of programs that have read a catalogue and wait for their script, so that no query waits for the reading.

The program opens its script only after the sky plan and the catalogue are accepted. Its script is a named pipe here: once
the pipe opens, the program is ready. Each thread of the pool starts a program, takes the queries that wait (they go into
one script and share one scan), and gives each its answer. The program ends with its script, and the thread starts the next.

    pool = Pool(folder, programs=3)
    pool.start()                        # a SkyqError if the program does not accept the catalogue
    answer = pool.ask(sql, 60)          # a transcript.Answer; a SkyqError after 60 seconds
    pool.close()
"""
import collections
import os
import shutil
import tempfile
import threading
import time

from skyq_lib import engine
from skyq_lib.errors import SkyqError
from skyq_lib.warm import Warm

MOST_TOGETHER = 64          # queries of a script, so many run at once in the program
# How long a script waits for further queries: until none has come for this long, and in all, in seconds. The script of the
# last program that is ready waits longer: who comes too late for it waits until a program has read the catalogue again.
QUIET, LONGEST_QUIET = 0.015, 0.15
LAST_QUIET, LAST_LONGEST_QUIET = 0.05, 0.25
AGAIN = 1.0                 # seconds before a program is started again that failed
LOOK = 0.25                 # seconds between two looks at whether an answer is still wanted


class Cancelled(Exception):
    """A query that nobody waits for any more."""


class Busy(SkyqError):
    """More queries wait than the pool takes."""


class Question:
    """A query that a pool is asked: `done` is set once there is an answer or a fault."""

    def __init__(self, sql, on_start=None):
        self.sql, self.on_start = sql, on_start
        self.done = threading.Event()
        self.answer = self.fault = None
        self.program = None         # the Warm program that runs it
        self.is_cancelled = False
        self.is_alone = False       # whether it gets a script of its own

    def end(self, answer=None, fault=None):
        self.answer, self.fault = answer, fault
        self.done.set()


class Pool:
    """Programs over one catalogue folder; its calls may come from any thread."""

    def __init__(self, folder, programs=3, workers=None, most_waiting=256):
        workers = engine.default_workers() if workers is None else workers
        self.catalogue, self.workers, self.most_waiting = folder, workers, most_waiting
        self.waiting, self.programs = collections.deque(), set()
        self.changed = threading.Condition()        # guards all that this object holds
        self.turn = threading.Lock()                # one thread at a time gathers a script
        self.ready = 0                              # programs that wait for their script
        self.is_closed, self.is_ready, self.fault = False, False, None
        self.folder = tempfile.mkdtemp(prefix="skyq-")
        self.threads = [threading.Thread(target=self.serve, daemon=True) for _ in range(programs)]

    # -- the calls

    def start(self):
        """Starts the programs, and returns when one has read the catalogue; a SkyqError says why it does not."""
        for thread in self.threads:
            thread.start()
        with self.changed:
            self.changed.wait_for(lambda: self.is_ready or self.fault)
            if not self.is_ready:
                fault = self.fault
        if not self.is_ready:
            self.close()
            raise fault

    def ask(self, sql, seconds, hold=None, on_start=None, is_wanted=None):
        """The Answer to a query; after so many seconds a SkyqError, and where it is cancelled Cancelled.

        `hold` gets the Question, which pool.cancel takes; `on_start` is called when a program has it; `is_wanted` is asked
        now and then, and where it says no the query is cancelled.
        """
        question = Question(sql, on_start)
        self.put(question)
        if hold:
            hold(question)
        end = time.monotonic() + seconds
        while not question.done.wait(max(0.0, min(end - time.monotonic(), LOOK if is_wanted else seconds))):
            if time.monotonic() >= end:
                self.cancel(question)
                raise SkyqError(f"the query took more than {seconds:g} s; ask for less, or give it more time as an asynchronous job")
            if is_wanted and not is_wanted():
                self.cancel(question)
        if question.is_cancelled:
            raise Cancelled
        if question.fault:
            raise question.fault
        return question.answer

    def put(self, question):
        """Lets a Question wait for the next script."""
        with self.changed:
            if len(self.waiting) >= self.most_waiting:
                raise Busy(f"{self.most_waiting} queries wait already; ask again later")
            self.waiting.append(question)
            self.changed.notify_all()

    def cancel(self, question):
        """Gives a query up: a program that runs it ends, and what else it ran is asked again."""
        with self.changed:
            if question.done.is_set():
                return
            question.is_cancelled = True
            if question in self.waiting:
                self.waiting.remove(question)
            if question.program:
                question.program.kill()
        question.end()

    def close(self):
        """Ends all programs and what still waits."""
        with self.changed:
            self.is_closed = True
            for program in self.programs:
                program.kill()
            waiting, self.waiting = list(self.waiting), collections.deque()
            self.changed.notify_all()
        for question in waiting:
            question.end(fault=SkyqError("the service ends"))
        for thread in self.threads:
            if thread.ident:
                thread.join(10)
        shutil.rmtree(self.folder, ignore_errors=True)

    # -- the threads

    def serve(self):
        """Starts programs, one after the other, and gives each a script."""
        while not self.is_closed:
            program = None
            try:
                program = self.started()
                program.wait_until_ready()
                self.tell_ready()
                self.run(program, self.gathered())
            except SkyqError as fault:
                self.tell_fault(fault)
            except OSError as fault:
                self.tell_fault(SkyqError(f"the program cannot be run: {fault.strerror or fault}"))
            finally:
                self.ended(program)

    def started(self):
        """A new program, which reads the catalogue."""
        program = Warm(self.catalogue, self.folder, self.workers)
        with self.changed:
            self.programs.add(program)
            if self.is_closed:
                program.kill()
        return program

    def ended(self, program):
        if program:
            program.end()
            with self.changed:
                self.programs.discard(program)

    def tell_ready(self):
        with self.changed:
            self.is_ready, self.fault = True, None
            self.ready += 1
            self.changed.notify_all()

    def tell_fault(self, fault):
        """No program can be had: what waits is told so, and after a while a program is started again."""
        with self.changed:
            if self.is_closed:
                return
            self.fault = fault
            waiting, self.waiting = list(self.waiting), collections.deque()
            self.changed.notify_all()
        for question in waiting:
            question.end(fault=fault)
        with self.changed:
            self.changed.wait_for(lambda: self.is_closed, AGAIN)

    def gathered(self):
        """The questions of the next script: waits for the first, and a moment for those that come with it."""
        with self.turn, self.changed:
            self.changed.wait_for(lambda: self.waiting or self.is_closed)
            self.wait_for_more()
            self.ready -= 1
            taken = []
            while self.waiting and len(taken) < MOST_TOGETHER and not (taken and (taken[0].is_alone or self.waiting[0].is_alone)):
                taken.append(self.waiting.popleft())
            return taken

    def wait_for_more(self):
        """Waits, with the lock held, until a script is full or no further query has come for a moment."""
        quiet, longest = (QUIET, LONGEST_QUIET) if self.ready > 1 else (LAST_QUIET, LAST_LONGEST_QUIET)
        end, count = time.monotonic() + longest, 0
        while count < len(self.waiting) < MOST_TOGETHER and time.monotonic() < end and not self.is_closed:
            count = len(self.waiting)
            self.changed.wait_for(lambda: len(self.waiting) != count or self.is_closed, quiet)

    def run(self, program, questions):
        """Runs one script, and ends its questions or lets them wait again."""
        with self.changed:
            questions = [one for one in questions if not one.is_cancelled]
            for one in questions:
                one.program = program
        for one in questions:
            if one.on_start:
                one.on_start()
        try:
            answers = program.answers([one.sql for one in questions]) if questions else []
            faults = [None] * len(questions)
        except SkyqError as fault:
            answers, faults = [None] * len(questions), [fault] * len(questions)
        with self.changed:
            for one in questions:
                one.program = None
            if program.is_killed and any(faults):
                return self.put_back([one for one in questions if not one.is_cancelled], False)
            if len(questions) > 1 and any(faults):      # one of them may be the cause, which the others need not bear
                return self.put_back([one for one in questions if not one.is_cancelled], True)
        for one, answer, fault in zip(questions, answers, faults):
            one.end(answer, fault)
        return None

    def put_back(self, questions, is_alone):
        """Lets questions wait again, before all others."""
        if self.is_closed:
            for one in questions:
                one.end(fault=SkyqError("the service ends"))
            return
        for one in reversed(questions):
            one.is_alone = one.is_alone or is_alone
            self.waiting.appendleft(one)
        self.changed.notify_all()
