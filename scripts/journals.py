#!/usr/bin/env python3
"""Checks journals of the shared scan by their definition.

    scripts/journals.py JOURNAL..

It prints for each file what `qserv check` has to say of it. Each entry is validated from the whole list of entries before it, by
the definitions of crates/scan_rules/specs (`Runs`, `Queries`, `Scan`): no board is kept from one entry to the next. The status is
0 if all journals are right, and otherwise 1. `random_journals.py` compares this with the program.
"""
import argparse
import collections
import re
import sys

RING_MOST, QUERY_MOST, RUNNING_MOST, NUMBER_BOUND = 16384, 255, 64, 1 << 32
NUMBER = re.compile(rb"[0-9]{1,10}")

Attach = collections.namedtuple("Attach", "seat query chunks")
Take = collections.namedtuple("Take", "seat ticket chunk queries")
Deliver = collections.namedtuple("Deliver", "seat ticket lost")
Cancel = collections.namedtuple("Cancel", "seat query")
Collect = collections.namedtuple("Collect", "seat query")
Close = collections.namedtuple("Close", "seat")
Journal = collections.namedtuple("Journal", "ring entries")


class Fault(Exception):
    """The first fault of a journal: its line from 1, and what is wrong with it."""

    def __init__(self, line, what):
        super().__init__(f"journal line {line}: {what}\n")


# ---- texts


def lines_of(text):
    """The lines of a text: an LF ends a line, with one carriage return before it; the last line may lack its end."""
    *ended, last = text.split(b"\n")
    return [line.removesuffix(b"\r") for line in ended] + ([last] if last else [])


def number(part):
    if not NUMBER.fullmatch(part) or int(part) >= NUMBER_BOUND:
        raise ValueError
    return int(part)


def query(part):
    if not 1 <= number(part) <= QUERY_MOST:
        raise ValueError
    return number(part)


def ascending(numbers):
    if any(a >= b for a, b in zip(numbers, numbers[1:])):
        raise ValueError
    return numbers


def queries(parts):
    if not parts:
        raise ValueError
    return ascending([query(part) for part in parts])


def lost(parts):
    if parts and parts[0] != b"lost":
        raise ValueError
    return queries(parts[1:]) if parts else []


def one(parts):
    (part,) = parts
    return query(part)


def entry(line):
    """The entry that a line spells; ValueError if it spells none."""
    seat, word, *rest = line.split(b" ")
    if word == b"attach" and rest:
        return Attach(number(seat), query(rest[0]), ascending([number(part) for part in rest[1:]]))
    if word == b"take" and len(rest) > 2:
        return Take(number(seat), number(rest[0]), number(rest[1]), queries(rest[2:]))
    if word == b"deliver" and rest:
        return Deliver(number(seat), number(rest[0]), lost(rest[1:]))
    if word == b"cancel":
        return Cancel(number(seat), one(rest))
    if word == b"collect":
        return Collect(number(seat), one(rest))
    if word == b"close" and not rest:
        return Close(number(seat))
    raise ValueError


def ring(line):
    word, part = line.split(b" ")
    if word != b"ring" or number(part) > RING_MOST:
        raise ValueError
    return number(part)


def read(text):
    """The journal that a text spells, or its first line that spells nothing."""
    found = []
    for at, line in enumerate(lines_of(text) or [b""], 1):
        try:
            found.append(entry(line) if found else ring(line))
        except ValueError:
            raise Fault(at, "syntax") from None
    return Journal(found[0], found[1:])


def spelt(journal):
    """The text of a journal."""
    text = f"ring {journal.ring}\n"
    for line in journal.entries:
        parts = [line.seat, type(line).__name__.lower()]
        for part in line[1:]:
            parts += part if isinstance(part, list) else [part]
        if isinstance(line, Deliver) and line.lost:
            parts.insert(3, "lost")
        text += " ".join(map(str, parts)) + "\n"
    return text.encode()


# ---- definitions


class Past:
    """The content of a list of entries, each part by one look through the whole list."""

    def __init__(self, journal_ring, past):
        self.ring = journal_ring
        self.takes = [line for line in past if isinstance(line, Take)]
        self.wanted = {line.query: line.chunks for line in past if isinstance(line, Attach)}
        self.delivered = {line.ticket for line in past if isinstance(line, Deliver)}
        self.lost = {q for line in past if isinstance(line, Deliver) for q in line.lost}
        self.cancelled = {line.query for line in past if isinstance(line, Cancel)}
        self.collected = {line.query for line in past if isinstance(line, Collect)}
        self.closed = any(isinstance(line, Close) for line in past)
        self.served = {(q, line.chunk) for line in self.takes for q in line.queries}
        self.given = {(q, line.chunk) for line in self.takes if line.ticket in self.delivered for q in line.queries}

    def is_running(self, q):
        stands = q in self.wanted and q not in self.cancelled and q not in self.lost
        return stands and any((q, chunk) not in self.given for chunk in self.wanted[q])

    def running(self):
        return [q for q in range(QUERY_MOST + 1) if self.is_running(q)]

    def takers(self, chunk):
        return [q for q in self.running() if chunk in self.wanted[q] and (q, chunk) not in self.served]

    def next_chunk(self):
        """The first chunk in ring order, from one step after the last one taken, that some query needs."""
        place = (self.takes[-1].chunk + 1) % self.ring if self.takes else 0
        needed = {chunk for q in self.running() for chunk in self.wanted[q] if (q, chunk) not in self.served}
        around = [(place + steps) % self.ring for steps in range(self.ring)]
        return next((chunk for chunk in around if chunk in needed), None)

    def may_attach(self, line):
        fits = not self.closed and line.query not in self.wanted and len(self.running()) < RUNNING_MOST
        return fits and all(chunk < self.ring for chunk in line.chunks)

    def may_take(self, line):
        fits = line.ticket == len(self.takes) and line.chunk == self.next_chunk()
        return fits and line.queries == self.takers(line.chunk)

    def may_deliver(self, line):
        own = [take for take in self.takes if take.ticket == line.ticket]
        fits = any(take.seat == line.seat for take in own) and line.ticket not in self.delivered
        return fits and all(self.is_running(q) and any(q in take.queries for take in own) for q in line.lost)

    def may_follow(self, line):
        if isinstance(line, Attach):
            return self.may_attach(line)
        if isinstance(line, Take):
            return self.may_take(line)
        if isinstance(line, Deliver):
            return self.may_deliver(line)
        if isinstance(line, Cancel):
            return self.is_running(line.query)
        if isinstance(line, Collect):
            return line.query in self.wanted and not self.is_running(line.query) and line.query not in self.collected
        return not self.closed


def told(text):
    """What the program has to say of a journal's text: its status, what it writes, and its line on standard error."""
    try:
        journal = read(text)
        for at, line in enumerate(journal.entries):
            if not Past(journal.ring, journal.entries[:at]).may_follow(line):
                raise Fault(at + 2, "not a step")
    except Fault as fault:
        return 12, b"", str(fault).encode()
    counts = collections.Counter(type(line) for line in journal.entries)
    line = f"ok: {len(journal.entries)} entries, {counts[Attach]} queries, {counts[Take]} takes\n"
    return 0, line.encode(), b""


def main():
    parser = argparse.ArgumentParser(description=__doc__, formatter_class=argparse.RawDescriptionHelpFormatter)
    parser.add_argument("journals", nargs="+", metavar="JOURNAL")
    wrong = 0
    for name in parser.parse_args().journals:
        with open(name, "rb") as file:
            status, out, err = told(file.read())
        wrong += status != 0
        print(f"{name}: {(out or err).decode()}", end="")
    return 1 if wrong else 0


if __name__ == "__main__":
    sys.exit(main())
