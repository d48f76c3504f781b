"""The words and signs of an ADQL text, and the words that stand for what is not answered here."""
import re
from dataclasses import dataclass

from skyq_lib.errors import SkyqError

TOKEN = re.compile(
    r"""(?P<blank>\s+|--[^\n]*)
      | (?P<number>(?:\d+\.?\d*|\.\d+)(?:[eE][+-]?\d+)?)
      | (?P<name>[A-Za-z_][A-Za-z0-9_]*)
      | (?P<quoted>"(?:[^"]|"")+")
      | (?P<text>'(?:[^']|'')*')
      | (?P<sign><=|>=|<>|!=|\|\||[-<>=,()*+/.;])""",
    re.X,
)
RESERVED = set(
    "ALL AND AS ASC BETWEEN BY CROSS DESC DISTINCT EXCEPT EXISTS FROM FULL GROUP HAVING IN INNER INTERSECT IS JOIN LEFT LIKE"
    " NATURAL NOT NULL OFFSET ON OR ORDER OUTER RIGHT SELECT TOP UNION USING WHERE WITH CASE ILIKE LIMIT".split()
)
# Parts of ADQL that the engine has not, each with what to do instead.
MISSING = {
    "DISTINCT": "DISTINCT is not answered here; GROUP BY the same columns gives each combination once",
    "HAVING": "HAVING is not answered here; filter the groups of the answer instead",
    "OFFSET": "OFFSET is not answered here; ask for TOP n and leave out the first rows",
    "UNION": "UNION is not answered here; ask each query by itself",
    "EXCEPT": "EXCEPT is not answered here; ask each query by itself",
    "INTERSECT": "INTERSECT is not answered here; ask each query by itself",
    "WITH": "WITH is not answered here; write the query in one SELECT",
    "EXISTS": "EXISTS is not answered here; a query has no other query inside",
    "CASE": "CASE is not answered here; ask a query for each case",
    "LEFT": "outer joins are not answered here; only pairs of objects that are near each other",
    "RIGHT": "outer joins are not answered here; only pairs of objects that are near each other",
    "FULL": "outer joins are not answered here; only pairs of objects that are near each other",
    "NATURAL": "NATURAL JOIN is not answered here; only pairs of objects that are near each other",
    "USING": "USING is not answered here; only pairs of objects that are near each other",
    "LIMIT": "LIMIT is not ADQL; write SELECT TOP n",
    "ILIKE": "ILIKE is not answered here; LIKE is",
}


@dataclass
class Token:
    kind: str
    text: str
    at: int
    end: int


def tokens(text):
    """The tokens of a text, and one of the kind 'end'."""
    found, at = [], 0
    while at < len(text):
        match = TOKEN.match(text, at)
        if not match:
            what = "a quote that is not closed" if text[at] in "'\"" else f"the sign {text[at]!r}"
            raise SkyqError(f"the query has {what} at character {at + 1}")
        if match.lastgroup != "blank":
            found.append(Token(match.lastgroup, match[0], at, match.end()))
        at = match.end()
    return found + [Token("end", "", at, at)]
