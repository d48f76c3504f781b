"""The tokens of a query's text, or its first fault. Written from the rules in docs/FORMATS.md alone."""
import re

KEYWORDS = (
    "SELECT FROM WHERE GROUP BY ORDER ASC DESC LIMIT AS AND OR NOT BETWEEN IN IS NULL COUNT SUM MIN MAX AVG"
    " CHORD2 AREA_BAND AREA_CAP AREA_BOX"
).split()
# a word, an int or a sign
TOKEN = re.compile(r"([A-Za-z_][A-Za-z0-9_]*)|([0-9]+)|(<=|>=|<>|!=|[<>=,()*+.;-])")
LARGEST = (1 << 63) - 1
MOST_TOKENS, MOST_OPEN = 2048, 32


class Fault(Exception):
    """What is wrong with a text, and at which place; no place where it has too many tokens."""

    def __init__(self, what, at=None):
        super().__init__(what if at is None else f"{what} at {at}")
        self.what, self.at = what, at


class Token:
    """A token: its kind (a keyword or a sign itself, 'name' or 'int'), its text and its place. `!=` is of the kind `<>`."""

    def __init__(self, match):
        word, digits, sign = match.groups()
        self.text, self.at, self.end = match[0], match.start(), match.end()
        if word:
            self.kind = word.upper() if word.upper() in KEYWORDS else "name"
        else:
            self.kind = "int" if digits else "<>" if sign == "!=" else sign


def tokens_of(text):
    """The tokens of a text, of which each character is a byte."""
    found, at = [], 0
    while at < len(text):
        if text[at] in " \t\r\n":
            at += 1
            continue
        match = TOKEN.match(text, at)
        if not match:
            raise Fault("bad byte", at)
        token = Token(match)
        if token.kind == "int" and int(token.text) > LARGEST:
            raise Fault("number too large", at)
        found.append(token)
        at = token.end
    if len(found) > MOST_TOKENS:
        raise Fault(f"more than {MOST_TOKENS} tokens")
    check_depth(found)
    return found


def check_depth(tokens):
    """No more brackets are open at once than may be; a closing one closes one where one is open."""
    opened = 0
    for token in tokens:
        if token.kind == "(":
            opened += 1
            if opened > MOST_OPEN:
                raise Fault("brackets too deep", token.at)
        elif token.kind == ")":
            opened = max(0, opened - 1)
