"""What a TAP service answers: the parameters of a request become an Outcome, a table in the format that is asked for."""
import dataclasses
import io
import warnings

from skyq_lib import query, tables, tap_schema, votable, vosi
from skyq_lib.errors import SkyqError
from skyq_lib.pool import Busy, Cancelled
from skyq_lib.uws import Outcome

LANGUAGES = ("ADQL", *(f"ADQL-{number}" for number in vosi.LANGUAGES))


@dataclasses.dataclass
class Limits:
    """What the service gives at most."""
    maxrec: int = 100000            # rows where a request does not say
    most_rows: int = 1000000        # rows whatever it says
    seconds: int = 60               # a query that is waited for
    job_seconds: int = 600          # an asynchronous job where it does not say
    longest: int = 3600             # an asynchronous job whatever it says
    waiting: int = 256              # queries that wait
    request: int = 2**20            # bytes of a request
    connections: int = 256


class Service:
    """The answers of one catalogue, by a pool of programs."""

    def __init__(self, catalogue, pool, limits):
        self.catalogue, self.pool, self.limits = catalogue, pool, limits
        self.schema = tap_schema.Tables(catalogue)
        self.written(query.table_of([], []), False, "", "csv")      # so that no client waits for what the first table imports

    def outcome(self, parameters, seconds, hold=None, on_start=None, is_wanted=None):
        """The Outcome of a request's parameters, whose names are in capitals; Cancelled where its query is cancelled."""
        try:
            return self.table(parameters, lambda sql: self.pool.ask(sql, seconds, hold, on_start, is_wanted))
        except Busy as fault:
            return refused(str(fault), 503)
        except SkyqError as fault:
            return refused(str(fault))
        except Cancelled:
            raise
        except MemoryError:
            return refused("the service is out of memory; ask for fewer rows", 500)
        except Exception as fault:      # a fault of the service itself, which goes on
            return refused(f"the service has a fault: {type(fault).__name__}: {fault}", 500)

    def table(self, parameters, ask):
        """The Outcome with the table that is asked for; a SkyqError says what is wrong with the request."""
        text = checked(parameters)
        form = vosi.format_of(parameters.get("RESPONSEFORMAT") or parameters.get("FORMAT") or "votable")
        if form is None:
            raise SkyqError(f"RESPONSEFORMAT is one of {', '.join(vosi.FORMATS)}")
        maxrec = self.maxrec(parameters.get("MAXREC", ""))
        if self.schema.are_asked(text):
            found, is_cut = self.schema.ask(text, maxrec)
        else:
            answered = query.answer(self.catalogue, text, ask, maxrec)
            found, is_cut = answered.table, answered.is_cut
        return Outcome(200, vosi.FORMATS[form][0], self.written(found, is_cut or maxrec == 0, text, form))

    def maxrec(self, word):
        """The rows that a request asks for at most."""
        if not word.strip():
            return min(self.limits.maxrec, self.limits.most_rows)
        try:
            found = int(word)
        except ValueError:
            found = -1
        if found < 0:
            raise SkyqError(f"MAXREC is a whole number of rows, and not {word}")
        return min(found, self.limits.most_rows)

    def written(self, table, is_cut, text, form):
        """A table in a format, as bytes."""
        if form.startswith("votable"):
            return votable.document(table, is_cut, text, self.schema.ucds, form == "votable")
        with warnings.catch_warnings():
            warnings.simplefilter("ignore")
            if form == "fits":
                out = io.BytesIO()
                tables.write_as(table, out, "fits")
                return out.getvalue()
            out = io.StringIO()
            tables.write_as(table, out, "csv")
            return out.getvalue().encode()


def checked(parameters):
    """The query of a request; a SkyqError says which parameter is wrong."""
    if parameters.get("REQUEST", "doQuery") != "doQuery":
        raise SkyqError("REQUEST is doQuery")
    language = parameters.get("LANG", "ADQL")
    if language.upper() not in LANGUAGES:
        raise SkyqError(f"LANG is {' or '.join(LANGUAGES)}, and not {language}")
    if parameters.get("UPLOAD"):
        raise SkyqError("UPLOAD is not taken here: the engine answers queries of its own catalogue, and has no cross-match with another table")
    if not parameters.get("QUERY", "").strip():
        raise SkyqError("QUERY is missing: the ADQL of what is asked")
    return parameters["QUERY"]


def refused(why, status=400):
    """The Outcome of a request that has no answer: a VOTable with the reason."""
    return Outcome(status, votable.MIME, votable.fault_document(why), why)
