"""A TAP service of a catalogue folder in this process, and a client of few lines, for tests."""
import csv
import http.client
import io
import threading
import types
import urllib.parse
import warnings
import xml.etree.ElementTree

from astropy.io.votable import parse

from skyq_lib import uws
from skyq_lib.columns import Catalogue
from skyq_lib.pool import Pool
from skyq_lib.tap import Server
from skyq_lib.tap_service import Limits, Service

TAP = "{http://www.ivoa.net/xml/UWS/v1.0}"


class Running:
    """A service at a free port of the loopback address."""

    def __init__(self, folder, limits=None, programs=2):
        limits = limits or Limits()
        self.pool = Pool(folder, programs, 0, limits.waiting)
        self.service = Service(Catalogue.load(folder), self.pool, limits)
        self.jobs = uws.Jobs(self.service.outcome, self.pool.cancel, limits.job_seconds, limits.longest)
        self.server = Server(("127.0.0.1", 0), self.service, self.jobs)
        self.pool.start()
        self.thread = threading.Thread(target=self.server.serve_forever, args=(0.05,))
        self.thread.start()

    def close(self):
        self.server.shutdown()
        self.thread.join()
        self.server.server_close()
        self.jobs.close()
        self.pool.close()

    def request(self, method, path, body=None, headers=None):
        """The answer to one request: status, headers and body."""
        connection = http.client.HTTPConnection("127.0.0.1", self.server.server_address[1], timeout=60)
        try:
            connection.request(method, path, body, headers or {})
            got = connection.getresponse()
            return types.SimpleNamespace(status=got.status, headers=got.headers, body=got.read())
        finally:
            connection.close()

    def get(self, path, **parameters):
        return self.request("GET", f"{path}?{urllib.parse.urlencode(parameters)}" if parameters else path)

    def post(self, path, **parameters):
        return self.request("POST", path, urllib.parse.urlencode(parameters), {"Content-Type": "application/x-www-form-urlencoded"})

    # -- queries

    def rows(self, query, **more):
        """The rows of a query as CSV, each a list of words, without the header."""
        got = self.post("/tap/sync", LANG="ADQL", QUERY=query, RESPONSEFORMAT="csv", **more)
        if got.status != 200:
            raise AssertionError(got.body)
        return list(csv.reader(io.StringIO(got.body.decode())))[1:]

    def job(self, **parameters):
        """Makes a job; returns its path."""
        got = self.post("/tap/async", LANG="ADQL", **parameters)
        if got.status != 303:
            raise AssertionError(got.body)
        return urllib.parse.urlsplit(got.headers["Location"]).path

    def phase(self, path, seconds=20):
        """The phase of a job once it has ended, or when the time is over."""
        for _ in range(3):
            self.get(path, WAIT=seconds)
        return self.get(path + "/phase").body.decode()


def votable(got):
    """The VOTable of an answer, as astropy reads it."""
    with warnings.catch_warnings():
        warnings.simplefilter("error")
        return parse(io.BytesIO(got.body), verify="exception")


def status_of(got):
    """What an answer's VOTable says of the query: each QUERY_STATUS with its text. Astropy passes over those after the table."""
    tree = xml.etree.ElementTree.fromstring(got.body)
    infos = [one for one in tree.iter("{http://www.ivoa.net/xml/VOTable/v1.3}INFO") if one.get("name") == "QUERY_STATUS"]
    return [(one.get("value"), one.text) for one in infos]
