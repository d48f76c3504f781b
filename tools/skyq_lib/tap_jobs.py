"""The paths below /tap/async: each request on jobs becomes an Outcome or goes to another path."""
from skyq_lib import uws
from skyq_lib.errors import SkyqError
from skyq_lib.markup import HEAD
from skyq_lib.uws import Outcome

XML, PLAIN = "application/xml", "text/plain"
LONGEST_WAIT = 60           # seconds that a request waits for a new phase
MOST_LISTED = 1000


class Moved(Exception):
    """The request is answered at another path below /tap."""

    def __init__(self, path):
        super().__init__(path)
        self.path = path


class Missing(Exception):
    """There is nothing at a path."""


def answer(jobs, method, words, parameters, base):
    """The Outcome of a request for the path `words` below base, the address of /async."""
    if not words:
        return create(jobs, parameters) if method == "POST" else listed(jobs, parameters, base)
    job = jobs.find(words[0])
    if job is None:
        raise Missing(f"there is no job {words[0]}")
    if method == "DELETE" or method == "POST" and parameters.get("ACTION", "").upper() == "DELETE":
        jobs.delete(job)
        raise Moved("async")
    if method == "POST":
        change(jobs, job, words[1:], parameters)
        raise Moved(f"async/{job.id}")
    return shown(job, words[1:], parameters, base)


def create(jobs, parameters):
    """Makes a job of a request's parameters."""
    job = jobs.make({name: value for name, value in parameters.items() if name not in ("PHASE", "ACTION")})
    phase = parameters.get("PHASE", "").upper()
    if phase == "RUN":
        jobs.run(job)
    elif phase == "ABORT":
        jobs.abort(job)
    raise Moved(f"async/{job.id}")


def change(jobs, job, words, parameters):
    """Does what is posted to a job."""
    part = words[0] if words else ""
    if part == "phase":
        phase = parameters.get("PHASE", "").upper()
        if phase not in ("RUN", "ABORT"):
            raise SkyqError("PHASE is RUN or ABORT")
        (jobs.run if phase == "RUN" else jobs.abort)(job)
    elif part in ("", "parameters"):
        if job.phase != "PENDING":
            raise SkyqError(f"the job is {job.phase}, and its parameters stay as they are")
        job.parameters.update(parameters)
    elif part == "executionduration":
        job.seconds = duration(parameters.get("EXECUTIONDURATION", ""), jobs.longest)
    elif part == "destruction":
        job.destruction = min(uws.moment_of(parameters.get("DESTRUCTION", "")), job.created + uws.LONGEST_LIFE)
    else:
        raise Missing(f"nothing is posted to {part}")


def duration(word, longest):
    """The seconds that a job is given; 0 asks for as many as there are."""
    try:
        found = float(word)
    except ValueError:
        found = -1.0
    if not 0 <= found < float("inf"):
        raise SkyqError("EXECUTIONDURATION is a number of seconds")
    return int(min(found or longest, longest))


def listed(jobs, parameters, base):
    """The list of jobs: of one phase, after a moment, or the last few."""
    found = jobs.listed()
    if parameters.get("PHASE"):
        found = [job for job in found if job.phase == parameters["PHASE"].upper()]
    if parameters.get("AFTER"):
        after = uws.moment_of(parameters["AFTER"])
        found = [job for job in found if job.created > after]
    last = parameters.get("LAST", str(MOST_LISTED))
    if not (last.isascii() and last.isdigit()):
        raise SkyqError("LAST is a number of jobs")
    return Outcome(200, XML, uws.list_document(found[: int(last)], base).encode())


def shown(job, words, parameters, base):
    """What is to be seen of a job."""
    part = words[0] if words else ""
    if part == "":
        wait(job, parameters)
        return Outcome(200, XML, uws.job_document(job, base).encode())
    if part == "parameters":
        return Outcome(200, XML, (HEAD + uws.parameters_text(job, uws.SPACES)).encode())
    if part == "results" and len(words) > 1:
        if job.phase != "COMPLETED" or words[1] != "result":
            raise Missing(f"the job is {job.phase}, and has no such result")
        return Outcome(200, job.kind, job.result())
    if part == "results":
        return Outcome(200, XML, (HEAD + uws.results_text(job, base, uws.SPACES)).encode())
    if part == "error":
        if job.phase != "ERROR":
            raise Missing(f"the job is {job.phase}, and has no error")
        return Outcome(200, job.kind, job.result())
    words_of = {"phase": job.phase, "executionduration": f"{job.seconds:g}", "destruction": uws.stamp(job.destruction), "owner": "", "quote": ""}
    if part not in words_of:
        raise Missing(f"a job has no {part}")
    return Outcome(200, PLAIN, words_of[part].encode())


def wait(job, parameters):
    """Waits for a new phase where a request asks for that."""
    if "WAIT" in parameters:
        try:
            seconds = float(parameters["WAIT"])
        except ValueError:
            raise SkyqError("WAIT is a number of seconds") from None
        job.wait(LONGEST_WAIT if not 0 <= seconds <= LONGEST_WAIT else seconds, parameters.get("PHASE", "").upper() or None)
