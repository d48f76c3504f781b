"""What a sky plan, a catalogue, a source table and a script are as whole texts: what they contain, or their first fault.

Written from the rules in docs/FORMATS.md alone, for texts whose characters are bytes. A fault carries the exit status of a run
that is given the text, and its line on standard error. Sizes of whole texts, and too many rows, are not inspected.
"""
import re

import table_texts
from compare_places import BOTTOM, END, Sky
from session_ends import steps_of

NUMBER = re.compile(r"-?[0-9]{1,19}")
MOST_OVERLAP, MOST_STRIPES, MOST_CHUNKS, MOST_WEDGES, MOST_PARTS, LEAST_HEIGHT = 1 << 24, 256, 16384, 1024, 64, 64
MOST_LINE, MOST_QUERIES = 16384, 255


class Faulty(Exception):
    """The first fault of a text, as the status and the line that report it."""

    def __init__(self, status, line):
        super().__init__(line)
        self.status, self.line = status, line


# ---- lines


def lines_of(text):
    """The lines of a text: each ends with a line feed, and one carriage return before that is no part of it."""
    whole, last = text.split("\n")[:-1], text.split("\n")[-1]
    return [line[:-1] if line.endswith("\r") else line for line in whole] + [last] * bool(last)


def is_comment(line):
    return line.startswith("#") or not line.strip(" \t")


def numbers_of(words):
    """The numbers that the words are, or None where one is none."""
    return [int(word) for word in words] if all(NUMBER.fullmatch(word) for word in words) else None


# ---- sky plans


class Plan:
    """What a sky plan's lines have said so far."""

    def __init__(self):
        self.is_common, self.lows, self.chunks = None, [], 0

    def fault_of(self, line):
        """What is wrong with the next line, if anything is."""
        words = line.split(" ")
        return self.fault_of_head(words) if self.is_common is None else self.fault_of_stripe(words)

    def fault_of_head(self, words):
        numbers = numbers_of(words[1:])
        if words == ["version", "2"]:
            self.is_common = False
        elif words[0] == "overlap" and len(words) == 2 and numbers:
            self.is_common = True
            return None if 0 <= numbers[0] <= MOST_OVERLAP else "overlap"
        else:
            return "syntax"
        return None

    def fault_of_stripe(self, words):
        numbers = numbers_of(words[1:])
        if words[0] != "stripe" or len(words) != (5 if self.is_common else 6) or not numbers:
            return "syntax"
        low, chunks, columns, rows = numbers[:4]
        if not self.is_common and not 0 <= numbers[4] <= MOST_OVERLAP:
            return "overlap"
        is_next = low >= self.lows[-1] + LEAST_HEIGHT if self.lows else low == BOTTOM
        if not is_next or low > END - LEAST_HEIGHT:
            return "order"
        is_cut = 1 <= chunks <= MOST_WEDGES and 1 <= columns <= MOST_PARTS and 1 <= rows <= MOST_PARTS
        if not is_cut or chunks == 2 or chunks * columns == 2:
            return "count"
        self.lows.append(low)
        self.chunks += chunks
        return "too many" if len(self.lows) > MOST_STRIPES or self.chunks > MOST_CHUNKS else None


def sky_of(text):
    """The sky that a text plans."""
    plan, lines = Plan(), lines_of(text)
    for number, line in enumerate(lines, 1):
        fault = None if is_comment(line) else plan.fault_of(line)
        if fault:
            raise Faulty(3, f"sky line {number}: {fault}")
    if not plan.lows:
        raise Faulty(3, f"sky line {len(lines) + 1}: syntax")
    return Sky("\n".join(line for line in lines if not is_comment(line)))


# ---- catalogues and source tables


def table_of(text, form=table_texts.CATALOGUE, status=4):
    """The names of the columns that a catalogue has, and its rows by ascending id."""
    found = table_texts.read(text.encode("latin-1"), form)
    if isinstance(found, str):
        raise Faulty(status, found)
    return found


def sources_of(text):
    """The same of a source table."""
    return table_of(text, table_texts.SOURCES, 11)


# ---- scripts


def script_of(text):
    """The lines of a script's steps."""
    steps, queries = [], 0
    for number, line in enumerate(lines_of(text), 1):
        if len(line) > MOST_LINE:
            raise Faulty(5, f"script line {number}: too long")
        if is_comment(line):
            continue
        word, named = steps_of([line])[0]
        if word != "query" and not 1 <= named <= queries:
            raise Faulty(5, f"script line {number}: unknown query {named}")
        queries += word == "query"
        if queries > MOST_QUERIES:
            raise Faulty(5, f"script line {number}: too many queries")
        steps.append(line)
    return steps
