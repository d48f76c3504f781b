#!/usr/bin/env python3
"""Compares the program's reader and printer of SQL with second ones, on random texts.

A generator writes queries from the grammar, and of each a second text with one token changed. A reader of its own,
recursive descent straight from the grammar, says of each text whether it is a query, or which fault is the first.
The program `judge` says the same of the same texts, a line each. Texts on which the two differ are printed.

Then the same program prints each query back. A printer of its own, which goes from word to word by the rules of the
printed form, says what is wanted. What was printed is judged and printed again: it has to be a query, with the same
printed text.

usage: random_queries.py PROGRAM [--count N] [--seed N]

PROGRAM is the built program, crates/judge/out/judge after `rt run` in `crates/judge`. Nothing is written but
lines on standard output. The status is 0 where no text differs, and 1 else.
"""

import argparse
import collections
import random
import re
import subprocess
import sys

from sql_tokens import KEYWORDS, LARGEST, TOKEN, Fault, tokens_of

SIGNS = ["<=", ">=", "<>", "!=", "<", ">", "=", ",", "(", ")", "*", "+", "-", ".", ";"]
COMPARISONS = ["=", "<>", "!=", "<", "<=", ">", ">="]
AREAS = ["AREA_BAND", "AREA_CAP", "AREA_BOX"]


# ---- the generator: a list of words for each rule

class Writer:
    """Writes random queries, rule by rule."""

    def __init__(self, rand):
        self.rand = rand

    def chance(self, part):
        return self.rand.random() < part

    def name(self):
        return self.rand.choice(["x", "y", "ra_ps", "flux", "Object", "objectId", "_q1", "a", "b", "selects", "min_x"])

    def int(self):
        digits = str(self.rand.choice([0, 0, 1, 7, 42, 1000, LARGEST, self.rand.randrange(10**12)]))
        return "0" * self.rand.randrange(1, 25) + digits if self.chance(0.1) else digits

    def several(self, part, lead, least=1, most=3):
        words = part()
        while most > 1 and self.chance(0.4):
            words = words + lead() + part()
            most -= 1
        return words

    def col(self):
        return [self.name(), ".", self.name()] if self.chance(0.3) else [self.name()]

    def atom(self, depth):
        pick = self.rand.random()
        if pick < 0.35:
            return [self.int()]
        if pick < 0.8 or depth == 0:
            return self.col()
        return ["("] + self.expr(depth - 1) + [")"]

    def factor(self, depth):
        return (["-"] if self.chance(0.2) else []) + self.atom(depth)

    def prod(self, depth):
        return self.several(lambda: self.factor(depth), lambda: ["*"])

    def expr(self, depth):
        return self.several(lambda: self.prod(depth), lambda: [self.rand.choice("+-")])

    def sint(self):
        return (["-"] if self.chance(0.3) else []) + [self.int()]

    def sints(self):
        return ["("] + self.several(self.sint, lambda: [","], most=6) + [")"]

    def negation(self):
        return ["NOT"] if self.chance(0.4) else []

    def pred(self, depth):
        pick = self.rand.random()
        if pick < 0.25 and depth:
            return ["("] + self.cond(depth - 1) + [")"]
        if pick < 0.5:
            return self.expr(depth) + [self.rand.choice(COMPARISONS)] + self.expr(depth)
        if pick < 0.62:
            return (self.expr(depth) + self.negation() + ["BETWEEN"] + self.expr(depth) + ["AND"] + self.expr(depth))
        if pick < 0.74:
            return self.expr(depth) + self.negation() + ["IN"] + self.sints()
        if pick < 0.84:
            return self.expr(depth) + ["IS"] + self.negation() + ["NULL"]
        if pick < 0.93:
            return [self.rand.choice(AREAS)] + self.sints()
        return ["CHORD2", "(", self.name(), ",", self.name(), ")", self.rand.choice(["<", "<="]), self.int()]

    def neg(self, depth):
        return (["NOT"] if self.chance(0.25) else []) + self.pred(depth)

    def conj(self, depth):
        return self.several(lambda: self.neg(depth), lambda: ["AND"])

    def cond(self, depth):
        return self.several(lambda: self.conj(depth), lambda: ["OR"])

    def item(self):
        pick = self.rand.random()
        if pick < 0.15:
            words = ["COUNT", "(", "*", ")"]
        elif pick < 0.45:
            words = [self.rand.choice(["COUNT", "SUM", "MIN", "MAX", "AVG"]), "("] + self.expr(2) + [")"]
        else:
            words = self.expr(2)
        return words + (["AS", self.name()] if self.chance(0.3) else [])

    def table(self):
        alias = ["AS", self.name()] if self.chance(0.3) else [self.name()] if self.chance(0.4) else []
        return [self.name()] + alias

    def query(self):
        words = ["SELECT"]
        words += ["*"] if self.chance(0.15) else self.several(self.item, lambda: [","])
        words += ["FROM"] + self.table()
        words += [","] + self.table() if self.chance(0.3) else []
        words += ["WHERE"] + self.cond(3) if self.chance(0.7) else []
        words += ["GROUP", "BY"] + self.several(self.col, lambda: [","], most=4) if self.chance(0.25) else []
        way = self.rand.choice([[], ["ASC"], ["DESC"]])
        words += ["ORDER", "BY"] + self.col() + way if self.chance(0.3) else []
        words += ["LIMIT", self.int()] if self.chance(0.3) else []
        return words + ([";"] if self.chance(0.2) else [])

    def word(self):
        return self.rand.choice(KEYWORDS + SIGNS + ["x", "y", "7", str(LARGEST + 1), "#", "!"])

    def changed(self, words):
        """The words with one left out, one put in, one replaced, or two exchanged."""
        words = list(words)
        at = self.rand.randrange(len(words))
        pick = self.rand.randrange(4)
        if pick == 0:
            del words[at]
        elif pick == 1:
            words.insert(at, self.word())
        elif pick == 2:
            words[at] = self.word()
        elif at + 1 < len(words):
            words[at], words[at + 1] = words[at + 1], words[at]
        return words

    def blanks(self):
        return " " if self.chance(0.8) else "".join(self.rand.choice(" \t\r") for _ in range(self.rand.randrange(1, 4)))

    def cased(self, word):
        mixed = "".join(self.rand.choice([letter, letter.lower()]) for letter in word)
        return self.rand.choice([word, word.lower(), word.capitalize(), mixed])

    def text(self, words):
        """The words as a text: keywords in any case, and blanks where two words would run into one, or at will."""
        text = self.blanks() if self.chance(0.05) else ""
        for word in words:
            word = self.cased(word) if word in KEYWORDS else word
            runs = text and re.match(r"\w", word) and re.search(r"\w$", text)
            joins = text and (text[-1:] + word[:1]) in ("<=", ">=", "<>", "!=")
            text += (self.blanks() if runs or joins or self.chance(0.3) else "") + word
        return text + (self.blanks() if self.chance(0.05) else "")


# ---- the reader

class Reader:
    """Reads kinds of tokens by the grammar; each rule answers the places where it may end, from a place on.

    All ways to read a rule are followed, so no choice of one order over another is built in."""

    def __init__(self, kinds):
        self.kinds = kinds
        self.known = {}

    def one(self, at, *wanted):
        return {at + 1} if at < len(self.kinds) and self.kinds[at] in wanted else set()

    def chain(self, at, *parts):
        ends = {at}
        for part in parts:
            ends = {end for start in ends for end in self.rule(part, start)}
        return ends

    def rule(self, part, at):
        if isinstance(part, tuple):
            return self.one(at, *part)
        if isinstance(part, str) and part in GRAMMAR:
            if (part, at) not in self.known:
                self.known[part, at] = GRAMMAR[part](self, at)
            return self.known[part, at]
        if isinstance(part, str):
            return self.one(at, part)
        return part(self, at)


def seq(*parts):
    return lambda reader, at: reader.chain(at, *parts)


def either(*parts):
    return lambda reader, at: {end for part in parts for end in reader.rule(part, at)}


def maybe(*parts):
    return lambda reader, at: {at} | reader.chain(at, *parts)


def repeated(*parts):
    def ends_of(reader, at):
        ends, fresh = {at}, {at}
        while fresh:
            fresh = {end for start in fresh for end in reader.chain(start, *parts)} - ends
            ends |= fresh
        return ends
    return ends_of


GRAMMAR = {
    "query": seq("SELECT", "items", "FROM", "table", maybe(",", "table"), maybe("WHERE", "cond"),
                 maybe("GROUP", "BY", "col", maybe(",", "col"), maybe(",", "col"), maybe(",", "col")),
                 maybe("ORDER", "BY", "col", maybe(("ASC", "DESC"))), maybe("LIMIT", "int"), maybe(";")),
    "items": either("*", seq("item", repeated(",", "item"))),
    "item": seq(either("expr", "agg"), maybe("AS", "name")),
    "agg": either(seq("COUNT", "(", "*", ")"), seq(("COUNT", "SUM", "MIN", "MAX", "AVG"), "(", "expr", ")")),
    "table": seq("name", maybe(maybe("AS"), "name")),
    "cond": seq("conj", repeated("OR", "conj")),
    "conj": seq("neg", repeated("AND", "neg")),
    "neg": seq(maybe("NOT"), "pred"),
    "pred": either(
        seq("(", "cond", ")"),
        seq("expr", tuple(COMPARISONS), "expr"),
        seq("expr", maybe("NOT"), "BETWEEN", "expr", "AND", "expr"),
        seq("expr", maybe("NOT"), "IN", "(", "sint", repeated(",", "sint"), ")"),
        seq("expr", "IS", maybe("NOT"), "NULL"),
        seq(tuple(AREAS), "(", "sint", repeated(",", "sint"), ")"),
        seq("CHORD2", "(", "name", ",", "name", ")", ("<=", "<"), "int")),
    "expr": seq("prod", repeated(("+", "-"), "prod")),
    "prod": seq("factor", repeated("*", "factor")),
    "factor": seq(maybe("-"), "atom"),
    "atom": either("int", "col", seq("(", "expr", ")")),
    "col": seq("name", maybe(".", "name")),
    "sint": seq(maybe("-"), "int"),
}


def judged(text):
    """What is to be written for a text."""
    try:
        kinds = [token.kind for token in tokens_of(text)]
    except Fault as fault:
        return "too many tokens" if fault.at is None else f"{fault.what} {fault.at}"
    return "query" if len(kinds) in Reader(kinds).rule("query", 0) else "not a query"


# ---- the printer: the rules of the printed form, from word to word

SPACED = set("SELECT FROM WHERE GROUP BY ORDER DESC LIMIT AS AND OR NOT BETWEEN IN IS NULL".split())
SMALL = {"CHORD2", "AREA_BAND", "AREA_CAP", "AREA_BOX"}


def words_of(text):
    """The words of a query as they are printed, each with whether it is a keyword that has spaces around it."""
    behind_from, in_ints, minus = False, False, False
    for match in TOKEN.finditer(text):
        word, digits, sign = match.groups()
        upper = (word or "").upper()
        behind_from = behind_from or upper == "FROM"
        in_ints = (in_ints or upper == "IN" or upper in AREAS) and sign != ")"
        if upper == "ASC" or sign == ";" or (upper == "AS" and behind_from):
            continue
        if sign == "-" and in_ints:
            minus = True
        elif digits:
            if minus and int(digits):
                yield "-", False
            minus = False
            yield str(int(digits)), False
        elif sign:
            yield ("<>" if sign == "!=" else sign), False
        elif upper in SMALL:
            yield upper.lower(), False
        else:
            yield (upper if upper in KEYWORDS else word), upper in SPACED


def printed(text):
    """The printed text of a query."""
    out, last, spaced = "", "", False
    for word, spaces in words_of(text):
        beside = spaces or spaced or (re.match(r"\w", word) and re.search(r"\w$", last))
        out += (" " if out and beside and last != "(" and word != ")" else "") + word
        last, spaced = word, spaces
    return out


# ---- the limits, which random texts do not reach

def limits():
    for times in (31, 32, 33):
        yield "SELECT " + "(" * times + "x" + ")" * times + " FROM Object"
        yield "SELECT x FROM Object WHERE " + "(" * times + "x=1" + ")" * times
        yield "SELECT x FROM Object WHERE " + "(" * times + "x" + ")" * times + "=1"
    for end in ("", ";"):
        yield "SELECT x" + ",x" * 1021 + " FROM Object LIMIT 0" + end
    yield ")" * 5 + "(" * 33


def answers_of(program, form, texts):
    """What the program says of the texts, judged by a form."""
    given = "\n".join([f"judge {form}", *texts]) + "\n"
    done = subprocess.run([program], input=given.encode(), capture_output=True, check=True)
    answers = done.stdout.decode().split("\n")[:-1]
    if len(answers) != len(texts):
        sys.exit(f"{len(texts)} texts and {len(answers)} answers")
    return answers


def differ(texts, wants, answers):
    """Tells where what was answered isn't what is wanted, and counts it."""
    apart = [row for row in zip(texts, wants, answers) if row[1] != row[2]]
    for text, want, answer in apart[:20]:
        print(f"{text!r}\n  wanted: {want}\n  answered: {answer}")
    return len(apart)


def main():
    words = argparse.ArgumentParser(description=__doc__, formatter_class=argparse.RawDescriptionHelpFormatter)
    words.add_argument("program")
    words.add_argument("--count", type=int, default=10000)
    words.add_argument("--seed", type=int, default=1)
    given = words.parse_args()
    writer = Writer(random.Random(given.seed))
    texts = list(limits())
    for _ in range(given.count):
        query = writer.query()
        texts += [writer.text(query), writer.text(writer.changed(query))]
    texts = [text for text in texts if len(text) <= 16384]
    verdicts = [judged(text) for text in texts]
    apart = differ(texts, verdicts, answers_of(given.program, "read", texts))
    counts = collections.Counter(re.sub(r" \d+$", "", verdict) for verdict in verdicts)
    told = ", ".join(f"{count} {kind}" for kind, count in counts.most_common())
    print(f"{len(texts)} texts: {told}; {apart} differ")

    wants = [printed(text) if verdict == "query" else verdict for text, verdict in zip(texts, verdicts)]
    answers = answers_of(given.program, "print", texts)
    apart_printed = differ(texts, wants, answers)
    back = [answer for answer, verdict in zip(answers, verdicts) if verdict == "query"]
    apart_again = differ(back, ["query"] * len(back), answers_of(given.program, "read", back))
    apart_again += differ(back, back, answers_of(given.program, "print", back))
    print(f"{len(back)} queries printed: {apart_printed} differ; read and printed again: {apart_again} differ")
    return 1 if apart or apart_printed or apart_again else 0


if __name__ == "__main__":
    sys.exit(main())
