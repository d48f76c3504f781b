"""What a request to the TAP service must be before it is looked at: its method, its host and its origin.

A page of any web site may make a browser send requests to the loopback address. The name that the page was found by is then
the Host, if the name has been turned to this address meanwhile, or else the page's own site is the Origin.
"""
import re

HOST = re.compile(r"([A-Za-z0-9.\-]{1,255}|\[[0-9A-Fa-f:.]{2,45}\])(:\d{1,5})?")
LOOPBACK = re.compile(r"localhost|127(\.\d{1,3}){3}|\[?::1\]?", re.IGNORECASE)
READS, CHANGES = ("GET", "HEAD"), ("POST", "DELETE")


class Fault(Exception):
    """A request that is no request: a status of HTTP and a reason."""

    def __init__(self, status, why):
        super().__init__(why)
        self.status = status


def methods_of(words):
    """The methods that the words of a path take."""
    if words[:2] == ["tap", "async"]:
        return READS + (CHANGES if len(words) == 3 else ("POST",))
    return READS + (("POST",) if words == ["tap", "sync"] else ())


def judge(command, headers, address):
    """Refuses a foreign Host where the service is bound to a loopback address, and a change that another site's page asks for."""
    host = headers.get("Host")
    found = HOST.fullmatch(host or "")
    if host is not None and LOOPBACK.fullmatch(address[0]) and not (found and LOOPBACK.fullmatch(found[1])):
        raise Fault(403, "this service answers to the name of its own machine, localhost, alone")
    origin = headers.get("Origin")
    if command in CHANGES and origin is not None and origin.partition("://")[2].lower() != (host or "").lower():
        raise Fault(403, "a page of another site asks for a change")
