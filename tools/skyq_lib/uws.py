"""Asynchronous jobs (UWS 1.1): their phases, how they run, end and are forgotten, and their documents.

A job is PENDING until it is run, QUEUED until a program has its query, then EXECUTING, and ends COMPLETED, in ERROR or
ABORTED. Results are files in a folder that goes with the service; no job outlives it.
"""
import dataclasses
import datetime
import os
import tempfile
import threading
import uuid

from skyq_lib.errors import SkyqError
from skyq_lib.markup import HEAD, attributes, element, text
from skyq_lib.pool import Busy, Cancelled
from skyq_lib.votable import MIME, fault_document

ACTIVE, ENDED = ("PENDING", "QUEUED", "EXECUTING"), ("COMPLETED", "ERROR", "ABORTED")
SPACES = (' xmlns:uws="http://www.ivoa.net/xml/UWS/v1.0" xmlns:xlink="http://www.w3.org/1999/xlink"'
          ' xmlns:xsi="http://www.w3.org/2001/XMLSchema-instance"')
MOST_JOBS, MOST_AT_ONCE = 1000, 64
MOST_BYTES = 2**31                      # of all results
LIFE = datetime.timedelta(days=1)       # of a job, unless it is told
LONGEST_LIFE = datetime.timedelta(days=7)


def now():
    return datetime.datetime.now(datetime.timezone.utc)


def stamp(moment):
    """A moment as UWS writes it."""
    return moment.astimezone(datetime.timezone.utc).strftime("%Y-%m-%dT%H:%M:%S.%f")[:-3] + "Z"


def moment_of(word):
    """The moment of a text; a SkyqError if it is none."""
    try:
        found = datetime.datetime.fromisoformat(word.strip().replace("Z", "+00:00"))
    except ValueError:
        raise SkyqError(f"{word} is no moment, as 2026-11-29T18:00:00Z") from None
    return found if found.tzinfo else found.replace(tzinfo=datetime.timezone.utc)


@dataclasses.dataclass
class Outcome:
    """What a request gets: a status of HTTP, the type of its content and the bytes; why there is no answer, where there is none."""
    status: int
    kind: str
    body: bytes
    why: str = ""


class Job:
    """One job; `changed` guards it and tells its waiters of a new phase."""

    def __init__(self, parameters, seconds):
        self.id, self.parameters, self.seconds = uuid.uuid4().hex[:16], parameters, seconds
        self.created, self.started, self.ended = now(), None, None
        self.destruction = self.created + LIFE
        self.phase, self.why = "PENDING", ""
        self.status, self.kind, self.path, self.size = 0, "", None, 0
        self.question = None
        self.changed = threading.Condition()

    def turn(self, phase):
        """Goes to a phase, unless the job has ended."""
        with self.changed:
            if self.phase in ENDED:
                return False
            self.phase = phase
            if phase == "EXECUTING" and self.started is None:
                self.started = now()
            if phase in ENDED:
                self.ended = now()
            self.changed.notify_all()
            return True

    def wait(self, seconds, phase=None):
        """Returns when the phase is another than now, or than the one that is named, or after some seconds."""
        with self.changed:
            before = phase or self.phase
            if before in ACTIVE:
                self.changed.wait_for(lambda: self.phase != before, seconds)

    def result(self):
        """The bytes of the result, or of the fault."""
        if self.path is None:
            return fault_document(self.why)
        with open(self.path, "rb") as file:
            return file.read()


class Jobs:
    """The jobs of a service. `work(parameters, seconds, hold, on_start)` gives the Outcome of one; `cancel(question)` ends it."""

    def __init__(self, work, cancel, seconds, longest):
        self.work, self.cancel, self.seconds, self.longest = work, cancel, seconds, longest
        self.jobs = {}                              # by id, oldest first
        self.lock = threading.Lock()
        self.slots = threading.Semaphore(MOST_AT_ONCE)
        self.folder = tempfile.TemporaryDirectory(prefix="skyq-jobs-")

    def close(self):
        for job in list(self.jobs.values()):
            self.abort(job)
        self.folder.cleanup()

    def make(self, parameters):
        """A new job, which waits to be run."""
        self.forget()
        job = Job(parameters, self.seconds)
        with self.lock:
            old = next((one for one in self.jobs.values() if one.phase in ENDED), None) if len(self.jobs) >= MOST_JOBS else None
            if len(self.jobs) >= MOST_JOBS and old is None:
                raise Busy(f"there are {MOST_JOBS} jobs, and none has ended; ask again later")
            self.jobs[job.id] = job
        if old:
            self.delete(old)
        return job

    def find(self, name):
        """The job of an id, or None."""
        self.forget()
        return self.jobs.get(name)

    def listed(self):
        """All jobs, the newest first."""
        self.forget()
        with self.lock:
            return list(reversed(self.jobs.values()))

    def forget(self):
        """Deletes the jobs whose time is over."""
        with self.lock:
            old = [job for job in self.jobs.values() if job.destruction <= now()]
        for job in old:
            self.delete(job)

    def delete(self, job):
        self.abort(job)
        with self.lock:
            self.jobs.pop(job.id, None)
        with job.changed:
            if job.path and os.path.exists(job.path):
                os.unlink(job.path)

    def run(self, job):
        """Lets a pending job run, in a thread of its own."""
        with job.changed:
            if job.phase != "PENDING":
                return
            job.turn("QUEUED")
        threading.Thread(target=self.execute, args=(job,), daemon=True).start()

    def abort(self, job):
        """Ends a job, and the program that runs its query."""
        if job.turn("ABORTED") and job.question:
            self.cancel(job.question)

    def hold(self, job, question):
        """Keeps the question of a job's query, for abort."""
        with job.changed:
            job.question = question
            is_over = job.phase in ENDED
        if is_over:
            self.cancel(question)

    def execute(self, job):
        with self.slots:
            if job.phase in ENDED:
                return
            try:
                found = self.work(job.parameters, job.seconds, lambda question: self.hold(job, question), lambda: job.turn("EXECUTING"))
            except Cancelled:
                return
        try:
            self.finish(job, found)
        except OSError as fault:        # the disk is full
            job.why, job.kind = f"the result cannot be kept: {fault.strerror}", MIME
            job.turn("ERROR")

    def finish(self, job, found):
        """Keeps what came of a job."""
        job.turn("EXECUTING")       # also a job that needed no program
        self.make_room(len(found.body))
        path = os.path.join(self.folder.name, job.id)
        with job.changed:
            if job.phase in ENDED:
                return
            with open(path, "wb") as file:
                file.write(found.body)
            job.status, job.kind, job.path, job.size, job.why = found.status, found.kind, path, len(found.body), found.why
            job.turn("COMPLETED" if found.status == 200 else "ERROR")

    def make_room(self, size):
        """Deletes the oldest ended jobs while all results together are too large."""
        for job in reversed(self.listed()):
            if sum(one.size for one in self.listed()) + size <= MOST_BYTES:
                return
            if job.phase in ENDED:
                self.delete(job)


# ---- documents


def job_document(job, base):
    """The document of a job at base/ID."""
    with job.changed:
        moments = "".join(
            f"<uws:{name}>{stamp(at)}</uws:{name}>" if at else f'<uws:{name} xsi:nil="true"/>'
            for name, at in (("creationTime", job.created), ("startTime", job.started), ("endTime", job.ended))
        )
        fault = ""
        if job.phase == "ERROR":
            fault = f'<uws:errorSummary type="fatal" hasDetail="true"><uws:message>{text(job.why)}</uws:message></uws:errorSummary>'
        return (
            f'{HEAD}<uws:job version="1.1"{SPACES}><uws:jobId>{job.id}</uws:jobId>{run_id(job)}<uws:ownerId xsi:nil="true"/>'
            f'<uws:phase>{job.phase}</uws:phase><uws:quote xsi:nil="true"/>{moments}'
            f"<uws:executionDuration>{job.seconds:g}</uws:executionDuration><uws:destruction>{stamp(job.destruction)}</uws:destruction>"
            f"{parameters_text(job)}{results_text(job, base)}{fault}</uws:job>"
        )


def run_id(job):
    return element("uws:runId", job.parameters.get("RUNID"))


def parameters_text(job, spaces=""):
    found = "".join(f'<uws:parameter id="{text(name)}">{text(value)}</uws:parameter>' for name, value in job.parameters.items())
    return f"<uws:parameters{spaces}>{found}</uws:parameters>"


def results_text(job, base, spaces=""):
    found = ""
    if job.phase == "COMPLETED":
        more = attributes(size=job.size) + f' mime-type="{text(job.kind)}"'
        found = f'<uws:result id="result" xlink:href="{text(base)}/{job.id}/results/result"{more}/>'
    return f"<uws:results{spaces}>{found}</uws:results>"


def list_document(jobs, base):
    """The document of the list of jobs."""
    found = "".join(
        f'<uws:jobref id="{job.id}" xlink:href="{text(base)}/{job.id}"><uws:phase>{job.phase}</uws:phase>{run_id(job)}'
        f'<uws:ownerId xsi:nil="true"/><uws:creationTime>{stamp(job.created)}</uws:creationTime></uws:jobref>'
        for job in jobs
    )
    return f'{HEAD}<uws:jobs version="1.1"{SPACES}>{found}</uws:jobs>'
