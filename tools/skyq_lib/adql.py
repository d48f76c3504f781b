"""Reads a query in a subset of ADQL: its text to a `Query`, or an error that says what is wrong and where.

    query = SELECT [ALL] [TOP n] items FROM tables [WHERE cond] [GROUP BY names] [ORDER BY key [ASC | DESC]] [;]
    tables = table {(, | [INNER] JOIN) table [ON cond]},  table = [schema.]name [[AS] alias]
    item = * | alias.* | value [[AS] name]

Conditions and values share one grammar, loosest first: OR, AND, NOT, comparisons (with BETWEEN, IN, LIKE, IS NULL), + and -,
* and /, signs. Numbers are exact fractions. What a tree means is said in `translate`.
"""
from fractions import Fraction

from skyq_lib.adql_tree import Between, Binary, Call, In, IsNull, Item, Junction, Like, Name, Negative, Not, Number, Query, Star, Text
from skyq_lib.adql_words import MISSING, RESERVED, tokens
from skyq_lib.errors import SkyqError

DEEPEST = 60            # brackets within brackets
MOST_DIGITS = 100       # of a number, and its power of ten


def read(text):
    """The query that a text is."""
    return Parser(text).query()


def read_condition(text):
    """The condition that a text is."""
    parser = Parser(text)
    found = parser.cond()
    parser.end()
    return found


class Parser:
    def __init__(self, text):
        self.text, self.tokens, self.at, self.depth = text, tokens(text), 0, 0

    # -- tokens

    @property
    def next(self):
        return self.tokens[self.at]

    def word(self, ahead=0):
        """The next token's keyword, or its sign, or ''."""
        token = self.tokens[min(self.at + ahead, len(self.tokens) - 1)]
        return token.text.upper() if token.kind == "name" else token.text if token.kind == "sign" else ""

    def take(self, *words):
        """The next token's keyword or sign if it is one of these, and then it is passed; else ''."""
        found = self.word()
        if found not in words:
            return ""
        self.at += 1
        return found

    def need(self, word):
        if not self.take(word):
            self.fail(f"{word} is missing")

    def fail(self, what):
        token = self.next
        if token.kind == "name" and token.text.upper() in MISSING:
            raise SkyqError(MISSING[token.text.upper()])
        where = f"at {token.text!r}, character {token.at + 1}" if token.kind != "end" else "at its end"
        raise SkyqError(f"the query cannot be read {where}: {what}")

    def end(self):
        if self.next.kind != "end":
            self.fail("the query has ended before it")

    # -- clauses

    def query(self):
        if self.word() != "SELECT":
            self.fail("a query begins with SELECT")
        self.at += 1
        self.take("ALL")
        top = self.count() if self.take("TOP") else None
        items = self.listed(self.item)
        self.need("FROM")
        tables, where = self.tables_with_conditions()
        if self.take("WHERE"):
            where.append(self.cond())
        found = Query(items, tables, where, top=top)
        if self.take("GROUP"):
            self.need("BY")
            found.group = self.listed(self.group_key)
        if self.take("ORDER"):
            self.need("BY")
            found.order = self.sum()
            found.down = self.take("ASC", "DESC") == "DESC"
            if self.word() == ",":
                raise SkyqError("ORDER BY takes one key here; order the answer by the others instead")
        self.take(";")
        self.end()
        return found

    def count(self):
        token = self.next
        if token.kind != "number" or not token.text.isdigit():
            self.fail("TOP takes a whole number")
        self.at += 1
        return int(token.text)

    def listed(self, rule):
        found = [rule()]
        while self.take(","):
            found.append(rule())
        return found

    def item(self):
        if self.take("*"):
            return Item(Star())
        if self.word(1) == "." and self.word(2) == "*":
            table = self.name("a table")
            self.at += 2
            return Item(Star(table))
        at = self.next.at
        value = self.sum()
        text = self.text[at : self.tokens[self.at - 1].end]
        return Item(value, self.alias(), text)

    def alias(self):
        """A name after AS, or one without it."""
        if self.take("AS"):
            return self.name("a name")
        token = self.next
        is_name = token.kind == "quoted" or (token.kind == "name" and token.text.upper() not in RESERVED)
        return self.name("a name") if is_name else None

    def tables_with_conditions(self):
        tables, where = [self.table()], []
        while True:
            if self.take(","):
                tables.append(self.table())
                continue
            if self.word() in ("INNER", "CROSS") and self.word(1) == "JOIN":
                self.at += 1
            if not self.take("JOIN"):
                return tables, where
            tables.append(self.table())
            if self.take("ON"):
                where.append(self.cond())

    def table(self):
        if self.word() == "(":
            raise SkyqError("a query inside of another is not answered here")
        name = self.name("a table")
        while self.take("."):
            name += "." + self.name("a table")
        return name, self.alias()

    def group_key(self):
        value = self.sum()
        if not isinstance(value, Name):
            raise SkyqError("GROUP BY takes columns alone; for bins, give the table a column of them when it is ingested")
        return value

    def name(self, what):
        token = self.next
        if token.kind == "quoted":
            self.at += 1
            return token.text[1:-1].replace('""', '"')
        if token.kind != "name" or token.text.upper() in RESERVED:
            self.fail(f"{what} is missing")
        self.at += 1
        return token.text

    # -- conditions and values

    def cond(self):
        return self.junction("OR", lambda: self.junction("AND", self.negation))

    def junction(self, word, rule):
        parts = [rule()]
        while self.take(word):
            parts.append(rule())
        return parts[0] if len(parts) == 1 else Junction(word, parts)

    def negation(self):
        if self.take("NOT"):
            return self.nested(lambda: Not(self.negation()))
        return self.predicate()

    def nested(self, rule):
        self.depth += 1
        if self.depth > DEEPEST:
            raise SkyqError(f"the query has more than {DEEPEST} brackets within brackets")
        found = rule()
        self.depth -= 1
        return found

    def predicate(self):
        value = self.sum()
        op = self.take("=", "<>", "!=", "<", "<=", ">", ">=")
        if op:
            return Binary("<>" if op == "!=" else op, value, self.sum())
        if self.take("IS"):
            no = bool(self.take("NOT"))
            self.need("NULL")
            return IsNull(value, no)
        no = bool(self.take("NOT"))
        word = self.take("BETWEEN", "IN", "LIKE")
        if word == "BETWEEN":
            low = self.sum()
            self.need("AND")
            return Between(value, low, self.sum(), no)
        if word == "IN":
            self.need("(")
            if self.word() == "SELECT":
                raise SkyqError("a query inside of another is not answered here")
            listed = self.listed(self.sum)
            self.need(")")
            return In(value, listed, no)
        if word == "LIKE":
            if self.next.kind != "text":
                self.fail("LIKE takes a pattern in quotes")
            self.at += 1
            return Like(value, text_of(self.tokens[self.at - 1]), no)
        if no:
            self.fail("BETWEEN, IN or LIKE is missing")
        return value

    def sum(self):
        value = self.product()
        while op := self.take("+", "-"):
            value = Binary(op, value, self.product())
        if self.word() == "||":
            raise SkyqError("|| is not answered here; words are only compared")
        return value

    def product(self):
        value = self.signed()
        while op := self.take("*", "/"):
            value = Binary(op, value, self.signed())
        return value

    def signed(self):
        op = self.take("+", "-")
        if op:
            of = self.nested(self.signed)
            return Negative(of) if op == "-" else of
        return self.atom()

    def atom(self):
        token = self.next
        if self.take("("):
            if self.word() == "SELECT":
                raise SkyqError("a query inside of another is not answered here")
            value = self.nested(self.cond)
            self.need(")")
            return value
        if token.kind == "number":
            self.at += 1
            return Number(number_of(token))
        if token.kind == "text":
            self.at += 1
            return Text(text_of(token))
        if token.kind == "name" and token.text.upper() not in RESERVED and self.word(1) == "(":
            return self.call()
        return self.column()

    def call(self):
        name = self.next.text.upper()
        self.at += 2
        if self.word() == "DISTINCT":
            raise SkyqError(f"{name}(DISTINCT ..) is not answered here; GROUP BY the column and count the groups")
        if self.take("*"):
            args = [Star()]
        else:
            args = [] if self.word() == ")" else self.nested(lambda: self.listed(self.cond))
        self.need(")")
        return Call(name, args)

    def column(self):
        exact = self.next.kind == "quoted"
        names = [self.name("a value")]
        while self.take("."):
            exact = self.next.kind == "quoted"
            names.append(self.name("a column"))
        return Name(names[-2] if len(names) > 1 else None, names[-1], exact)


def number_of(token):
    """The exact value of a number; one of a huge power of ten would not fit in memory."""
    power = token.text.lower().partition("e")[2]
    if len(token.text) > MOST_DIGITS or abs(int(power or 0)) > MOST_DIGITS:
        raise SkyqError(f"the number {token.text[:30]} at character {token.at + 1} is beyond what is answered here")
    return Fraction(token.text)


def text_of(token):
    return token.text[1:-1].replace("''", "'")
