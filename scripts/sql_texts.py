"""Reads a query's text: by recursive descent over its tokens its tree, or why it is no query."""
from sql_tokens import Fault, tokens_of
from sql_trees import (
    ARGUMENTS,
    COMPARISONS,
    Among,
    Area,
    Between,
    Bracket,
    Chord,
    Col,
    Compare,
    Cond,
    Expr,
    Grouped,
    Int,
    IsNull,
    Item,
    Query,
    Refused,
)

AGGREGATES = {"COUNT", "SUM", "MIN", "MAX", "AVG"}


# ---- the grammar


class Reader:
    """Recursive descent; each method reads its rule of the grammar, or raises NotThis."""

    def __init__(self, tokens):
        self.tokens, self.at = tokens, 0

    def kind(self):
        return self.tokens[self.at].kind if self.at < len(self.tokens) else None

    def next(self, *kinds):
        if self.kind() not in kinds:
            raise NotThis
        self.at += 1
        return self.tokens[self.at - 1]

    def has(self, *kinds):
        """Passes over a token of such a kind, where it is the next one."""
        if self.kind() not in kinds:
            return False
        self.at += 1
        return True

    def listed(self, rule, by=(",",)):
        found = [rule()]
        while self.has(*by):
            found.append(rule())
        return found

    def query(self):
        made = Query()
        self.next("SELECT")
        if self.kind() == "*":
            made.star = self.next("*")
        else:
            made.items = self.listed(self.item)
        self.next("FROM")
        made.tables = [self.table()] + ([self.table()] if self.has(",") else [])
        made.cond = self.cond() if self.has("WHERE") else None
        if self.has("GROUP"):
            self.next("BY")
            made.group = self.listed(self.col)
        if self.has("ORDER"):
            self.next("BY")
            made.order = self.col()
            made.down = self.kind() == "DESC"
            self.has("ASC", "DESC")
        made.limit = int(self.next("int").text) if self.has("LIMIT") else None
        self.has(";")
        if self.at < len(self.tokens) or len(made.group) > 4:
            raise NotThis
        return made

    def item(self):
        if self.kind() in AGGREGATES:
            word = self.next(*AGGREGATES).kind
            self.next("(")
            expr = None if word == "COUNT" and self.has("*") else self.expr()
            self.next(")")
        else:
            word, expr = None, self.expr()
        return Item(word, expr, self.next("name").text if self.has("AS") else None)

    def table(self):
        name = self.next("name")
        alias = self.next("name").text if self.has("AS") or self.kind() == "name" else None
        return name, alias

    def cond(self):
        return Cond(self.listed(lambda: self.listed(self.neg, ("AND",)), ("OR",)))

    def neg(self):
        return self.has("NOT"), self.pred()

    def pred(self):
        start = self.at
        if self.has("("):
            try:
                inner = self.cond()
                self.next(")")
                return Grouped(inner)
            except NotThis:
                self.at = start
        if self.kind() in ARGUMENTS:
            return Area(self.next(*ARGUMENTS), self.ints())
        if self.has("CHORD2"):
            return self.chord()
        return self.test_of(self.expr())

    def chord(self):
        self.next("(")
        left = self.next("name")
        self.next(",")
        right = self.next("name")
        self.next(")")
        return Chord(left, right, self.next("<=", "<").kind, int(self.next("int").text))

    def test_of(self, value):
        if self.kind() in COMPARISONS:
            return Compare(value, self.next(*COMPARISONS).kind, self.expr())
        if self.has("IS"):
            no = self.has("NOT")
            self.next("NULL")
            return IsNull(value, no)
        no = self.has("NOT")
        if self.has("IN"):
            return Among(value, no, self.ints())
        self.next("BETWEEN")
        low = self.expr()
        self.next("AND")
        return Between(value, no, low, self.expr())

    def ints(self):
        self.next("(")
        found = self.listed(self.sint)
        self.next(")")
        return found

    def sint(self):
        return -int(self.next("int").text) if self.has("-") else int(self.next("int").text)

    def expr(self):
        prods = [("+", self.prod())]
        while self.kind() in ("+", "-"):
            prods.append((self.next("+", "-").kind, self.prod()))
        return Expr(prods)

    def prod(self):
        return self.listed(lambda: (self.has("-"), self.atom()), ("*",))

    def atom(self):
        if self.kind() == "int":
            return Int(int(self.next("int").text))
        if self.has("("):
            inner = self.expr()
            self.next(")")
            return Bracket(inner)
        return self.col()

    def col(self):
        name = self.next("name")
        if not self.has("."):
            return Col(None, name.text, name.at, name.end)
        second = self.next("name")
        return Col(name.text, second.text, name.at, second.end)


class NotThis(Exception):
    """The tokens are not of the rule."""


def read(line):
    try:
        return Reader(tokens_of(line)).query()
    except Fault as fault:
        raise Refused(str(fault)) from None
    except NotThis:
        raise Refused("not a query") from None
