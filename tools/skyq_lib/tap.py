"""The command tap: a TAP 1.1 service of a catalogue folder, for pyvo, TOPCAT, STILTS and others."""
import email.parser
import email.policy
import select
import signal
import socket
import sys
import threading
import urllib.parse
from http.server import BaseHTTPRequestHandler, ThreadingHTTPServer

from skyq_lib import tap_jobs, uws, vosi
from skyq_lib.columns import Catalogue
from skyq_lib.errors import SkyqError
from skyq_lib.pool import Busy, Cancelled, Pool
from skyq_lib.tap_guard import HOST, Fault, judge, methods_of
from skyq_lib.tap_service import Limits, Service, refused
from skyq_lib.uws import Outcome

ROOT, PLAIN = "/tap", "text/plain; charset=utf-8"
HELP = """A TAP service (IVOA, TAP 1.1) of the catalogue {0}: {1} objects in the table Object.
  {2}/sync  {2}/async  {2}/tables  {2}/capabilities  {2}/availability
TOPCAT: VO, Table Access Protocol, TAP URL: {2}
pyvo:   pyvo.dal.TAPService("{2}").search("SELECT TOP 5 * FROM Object")
"""


class Server(ThreadingHTTPServer):
    """The server; each connection has a thread of its own, and there are not more than the limit."""
    daemon_threads = True
    request_queue_size = 128

    def __init__(self, address, service, jobs):
        self.address_family = socket.AF_INET6 if ":" in address[0] else socket.AF_INET
        self.service, self.jobs = service, jobs
        self.slots = threading.Semaphore(service.limits.connections)
        super().__init__(address, Handler)

    def server_bind(self):
        """Binds without looking up the name of the machine, which may take seconds and which nothing asks for."""
        self.socket.setsockopt(socket.SOL_SOCKET, socket.SO_REUSEADDR, 1)
        self.socket.bind(self.server_address)
        self.server_address = self.socket.getsockname()
        self.server_name, self.server_port = self.server_address[:2]

    def process_request(self, request, client_address):
        """Gives a connection its thread; where all are taken for a second it is closed."""
        if self.slots.acquire(timeout=1):
            super().process_request(request, client_address)
        else:
            self.shutdown_request(request)

    def process_request_thread(self, request, client_address):
        try:
            super().process_request_thread(request, client_address)
        finally:
            self.slots.release()

    def handle_error(self, request, client_address):
        """A client that goes away is no fault of the service."""
        fault = sys.exc_info()[1]
        if not isinstance(fault, OSError):
            print(f"skyq tap: a request failed: {type(fault).__name__}: {fault}", file=sys.stderr, flush=True)


class Handler(BaseHTTPRequestHandler):
    """One connection, which may carry several requests."""
    protocol_version = "HTTP/1.1"
    server_version, sys_version = "skyq", ""
    timeout = 60                        # seconds for a request to arrive
    wbufsize = -1                       # head and body go together
    disable_nagle_algorithm = True

    def log_message(self, *_):
        pass

    def do_GET(self):
        try:
            judge(self.command, self.headers, self.server.server_address)
            body = self.body()
            parameters = posted(self.headers.get("Content-Type", ""), body) if self.command == "POST" else {}
        except Fault as fault:
            self.close_connection = True
            return self.send(refused(str(fault), fault.status))
        return self.reply(urllib.parse.urlsplit(self.path).query, parameters)

    do_HEAD = do_POST = do_DELETE = do_PUT = do_OPTIONS = do_PATCH = do_GET

    def send_error(self, code, message=None, explain=None):
        """What Python's server refuses by itself, as a line and not as its page."""
        self.close_connection = True
        self.send(Outcome(code, PLAIN, f"{message or 'this is no request'}\n".encode()))

    def body(self):
        """The bytes of a request, if they are not too many; of any method, since the next request is behind them."""
        word, most = self.headers.get("Content-Length"), self.server.service.limits.request
        if word is None and self.command != "POST" and "Transfer-Encoding" not in self.headers:
            return b""
        if word is None or not (word.isascii() and word.isdigit()) or "Transfer-Encoding" in self.headers:
            raise Fault(411, "the request does not say how long it is")
        if len(word) > 12 or int(word) > most:
            raise Fault(413, f"the request is longer than {most} bytes")
        return self.rfile.read(int(word))

    def reply(self, query, more):
        """Answers a request with the parameters of its path and of its body."""
        try:
            parameters = {**named(parsed(query)), **more}
            outcome = self.outcome(parameters)
        except Fault as fault:
            outcome = refused(str(fault), fault.status)
        except Busy as fault:
            outcome = refused(str(fault), 503)
        except SkyqError as fault:
            outcome = refused(str(fault))
        except tap_jobs.Missing as fault:
            outcome = Outcome(404, PLAIN, f"{fault}\n".encode())
        except tap_jobs.Moved as moved:
            return self.move(f"{self.base()}/{moved.path}")
        except Cancelled:               # the client has gone
            self.close_connection = True
            return None
        return self.send(outcome)

    def words(self):
        """The words of the path."""
        return urllib.parse.unquote(urllib.parse.urlsplit(self.path).path).strip("/").split("/")

    def outcome(self, parameters):
        """The Outcome of the request."""
        service, words = self.server.service, self.words()
        path = "/" + "/".join(words)
        if self.command not in methods_of(words):
            raise Fault(405, f"{path} takes {', '.join(methods_of(words))}")
        if words == [""] or words == ["tap"]:
            catalogue = service.catalogue
            return Outcome(200, PLAIN, HELP.format(catalogue.source, catalogue.rows, self.base()).encode())
        if words[0] != "tap" or not (len(words) == 2 or words[1] == "async"):
            raise tap_jobs.Missing(f"there is no {path} here; there is {ROOT}")
        if words[1] == "async":
            return tap_jobs.answer(self.server.jobs, self.command, words[2:], parameters, f"{self.base()}/async")
        if words[1] == "sync":
            return service.outcome(parameters, service.limits.seconds, is_wanted=self.is_there)
        documents = {
            "tables": service.schema.document, "availability": vosi.availability,
            "capabilities": lambda: vosi.capabilities(self.base(), service.limits),
        }
        if words[1] not in documents:
            raise tap_jobs.Missing(f"there is no {path} here; there is {ROOT}")
        return Outcome(200, "application/xml", documents[words[1]]().encode())

    def base(self):
        """The address of the service, as the client calls it."""
        host = self.headers.get("Host", "")
        if not HOST.fullmatch(host):
            host = address_text(self.server.server_address)
        return f"http://{host}{ROOT}"

    def is_there(self):
        """Whether the client still waits for its answer."""
        try:
            is_readable = bool(select.select([self.connection], [], [], 0)[0])
            return not is_readable or bool(self.connection.recv(1, socket.MSG_PEEK | socket.MSG_DONTWAIT))
        except (OSError, ValueError):
            return False

    def send(self, outcome):
        self.send_response(outcome.status)
        self.send_header("Content-Type", outcome.kind)
        self.send_header("Content-Length", str(len(outcome.body)))
        if outcome.status == 503:
            self.send_header("Retry-After", "5")
        if outcome.status == 405:
            self.send_header("Allow", ", ".join(methods_of(self.words())))
        if self.close_connection:
            self.send_header("Connection", "close")
        self.end_headers()
        if self.command != "HEAD":
            self.wfile.write(outcome.body)

    def move(self, path):
        self.send_response(303)
        self.send_header("Location", path)
        self.send_header("Content-Length", "0")
        self.end_headers()


def address_text(address):
    host, port = address[:2]
    return f"[{host}]:{port}" if ":" in host else f"{host}:{port}"


# ---- parameters


def parsed(text):
    """The names and values of a form's text."""
    try:
        return urllib.parse.parse_qsl(text, keep_blank_values=True, errors="strict", max_num_fields=200)
    except ValueError as fault:
        raise Fault(400, f"the parameters are no form in UTF-8: {fault}") from None


def named(pairs):
    """Parameters by their names in capitals; of several with one name the first counts."""
    found = {}
    for name, value in pairs:
        found.setdefault(name.upper(), value)
    return found


def posted(kind, body):
    """The parameters of a request's body: a form, or the parts of a multipart form."""
    if not kind.lower().startswith("multipart/form-data"):
        try:
            return named(parsed(body.decode("ascii").strip()))
        except UnicodeDecodeError:
            raise Fault(400, "the parameters are no form: they have bytes that are no ASCII") from None
    message = email.parser.BytesParser(policy=email.policy.HTTP).parsebytes(b"Content-Type: " + kind.encode("latin-1") + b"\r\n\r\n" + body)
    pairs = []
    for part in message.iter_parts() if message.is_multipart() else []:
        name = part.get_param("name", header="content-disposition")
        try:
            pairs.append((str(name or ""), (part.get_payload(decode=True) or b"").decode("utf-8")))
        except UnicodeDecodeError:
            pairs.append(("UPLOAD", "a file"))
    return named(pairs)


# ---- the command


def add_words(parser, command):
    add, limits = parser.add_argument, Limits()
    add("folder", metavar="FOLDER", help="a catalogue folder, as skyq ingest makes it")
    add("--port", type=int, default=8080, help="8080; 0 takes a free one")
    add("--host", default="127.0.0.1", help="the address to bind to, 127.0.0.1, which this machine alone reaches")
    add("--programs", type=int, default=3, metavar="N", help="programs that wait with the catalogue read, 3")
    add("--workers", type=int, metavar="N", help="threads that scan in each, 0 to 16")
    add("--maxrec", type=int, default=limits.maxrec, metavar="N", help=f"rows where a request does not say, {limits.maxrec}")
    add("--most-rows", type=int, default=limits.most_rows, metavar="N", help=f"rows whatever a request says, {limits.most_rows}")
    add("--seconds", type=int, default=limits.seconds, metavar="N", help=f"for a query that is waited for, {limits.seconds}")
    add("--job-seconds", type=int, default=limits.job_seconds, metavar="N", help=f"for an asynchronous job, {limits.job_seconds}")
    add("--waiting", type=int, default=limits.waiting, metavar="N", help=f"queries that wait at most, {limits.waiting}")
    add("--request", type=int, default=limits.request, metavar="BYTES", help=f"of a request at most, {limits.request}")


def limits_of(words):
    """The Limits of the words; a SkyqError names one that is out of range."""
    for name in ("programs", "maxrec", "most_rows", "seconds", "job_seconds", "waiting", "request"):
        if getattr(words, name) < 1:
            raise SkyqError(f"--{name.replace('_', '-')} is at least 1")
    if words.programs > 32 or words.workers is not None and not 0 <= words.workers <= 16:
        raise SkyqError("--programs is at most 32, and --workers 0 to 16")
    if not 0 <= words.port <= 65535:
        raise SkyqError("--port is 0 to 65535")
    longest = max(words.job_seconds, Limits.longest)
    return Limits(words.maxrec, words.most_rows, words.seconds, words.job_seconds, longest, words.waiting, words.request)


def run(words):
    """Serves until it is interrupted."""
    limits = limits_of(words)
    catalogue = Catalogue.load(words.folder)
    pool = Pool(words.folder, words.programs, words.workers, limits.waiting)
    service = Service(catalogue, pool, limits)
    jobs = uws.Jobs(service.outcome, pool.cancel, limits.job_seconds, limits.longest)
    signal.signal(signal.SIGTERM, interrupted)
    try:
        server = bound((words.host, words.port), service, jobs)
        with server:
            pool.start()
            print(f"http://{address_text(server.server_address)}{ROOT} serves {words.folder}: {catalogue.rows} rows; end it with Ctrl-C", flush=True)
            server.serve_forever()
    except KeyboardInterrupt:
        return 0
    finally:
        jobs.close()
        pool.close()
    return 0


def bound(address, service, jobs):
    """The Server at an address; a SkyqError names one that it cannot have."""
    try:
        return Server(address, service, jobs)
    except (socket.gaierror, OverflowError, ValueError) as fault:
        raise SkyqError(f"{address[0]} is no address: {fault}") from None
    except OSError as fault:
        raise SkyqError(f"{address_text(address)}: {fault.strerror or fault}") from None


def interrupted(*_):
    raise KeyboardInterrupt
