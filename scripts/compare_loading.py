#!/usr/bin/env python3
"""Compares what the built program makes of catalogues and source tables, read by threads, with what is read of them here by one.

    scripts/compare_loading.py FOLDER [--program FILE] [--texts N] [--seed SEED] [--tables WORD ..]

The program reads a text of at least 64 KiB in parts, one a thread, cut after line feeds, and builds its chunks by threads too. So
each text here is longer than that. It is read here byte by byte and row by row (`table_texts.py`); `flat_answers.py` says what is
to be answered and reported over a catalogue, and `flat_children.py` what over a source table beside 40 objects. The program
answers three queries over each catalogue with 0, 1, 3 and 16 workers, and reports its chunks, and two queries over each source
table: all must write the same bytes, or the same fault, with the same status. The tables are both, or those that are named:
catalogue, sources.

- Swept: five short pieces of a text, one of LF, one of CR, one of CR LF, one of all three with empty lines, and one with quotes,
  each in the middle of a text of lines. The text grows at its end, so that with 3 workers the cut is looked for from each byte of
  the piece in turn.
- Cases: a byte order mark in front of the text and of a row, no line feed at the end, lines fewer than threads, no line feed at
  all, a header alone, empty lines alone, a header in quotes, a quote in each of 20 places, a fault of each kind in each of 20
  places, two faults, an id that repeats in another part, ids that rise, fall and are shuffled, NULL from a row on.
- Ended: a text without its last bytes, and one without its first, for each number of them up to two lines; with 3 workers.
- Random: N texts (20) of up to 16,000 rows, some with a changed byte.

FILE is the built program, by default .qserv/qserv, where ./qserv leaves it. The texts sky, csv, measured and script of the last
text, or of the first that differs, are left in FOLDER, which is made if it is missing. It prints how many texts were compared, and
each run that differs; the status is 0 if none does, and 1 else.
"""
import collections
import os
import random
import subprocess
import sys

import flat_answers
import flat_children
import random_worlds
import table_texts

HERE = os.path.dirname(os.path.abspath(__file__))
sys.path.append(os.path.join(HERE, "..", "bench"))
import demo_files  # noqa: E402  (it is in the other folder)
import program_words  # noqa: E402

SKY = "overlap 1000000\nstripe -268435472 1 1 1\nstripe -134217728 5 2 3\nstripe 0 8 1 2\nstripe 200000000 3 1 1\n"
WORKERS = [0, 1, 3, 16]
LONG = 1 << 16
OBJECTS = 40


# ---- texts


class Rows:
    """Draws rows of a catalogue."""

    format, header = table_texts.CATALOGUE, b"objectId,x,y,z,flux,kind\n"
    # what a column may not have
    wrong = [(0, b"-3"), (1, b"268435473"), (2, b"+5"), (3, b""), (4, b"x"), (5, b"1125899906842625"), (1, b"7")]
    queries = [
        "SELECT COUNT(*),COUNT(flux),SUM(flux),MIN(objectId),MAX(objectId) FROM Object",
        "SELECT objectId,x,y,z,flux FROM Object WHERE flux IS NULL OR flux>=0 ORDER BY objectId LIMIT 4000",
        "SELECT kind,COUNT(*),MIN(flux),MAX(z) FROM Object GROUP BY kind",
    ]
    # the name of its text, the program's status if it has a fault, and the words before the number of workers
    text, status, words = "csv", 4, ["query", "sky", "csv", "script"]

    def __init__(self, draw):
        self.draw, self.last = draw, 0

    def row(self):
        """The fields of a row; its id is above those before it."""
        self.last += self.draw.randint(1, 3)
        return [self.last, *self.front(), "" if self.draw.random() < 0.1 else self.draw.randint(-50, 999), self.draw.randrange(8)]

    def front(self):
        """The fields between the id and the extra ones."""
        return demo_files.position(*(self.draw.randrange(1, 2147483647) for _ in range(3)))

    def lines(self, bytes_wanted):
        """Lines of at least this length in all."""
        made, length = [], 0
        while length < bytes_wanted:
            made.append(line(self.row()))
            length += len(made[-1])
        return made

    @classmethod
    def without_flux(cls, row):
        """The line of a row with NULL for its flux, and another kind."""
        return b",".join([*row.split(b",")[: len(cls.format.first)], b"", b"3\n"])

    @classmethod
    def told(cls, found, _):
        """What is answered and what is reported over these names and rows."""
        world = random_worlds.World(SKY, *found)
        return flat_answers.transcript(world, cls.queries), flat_answers.report(world)


class Sources(Rows):
    """Draws rows of a source table, over the objects of ids up to 40 and over others."""

    format, header = table_texts.SOURCES, b"sourceId,objectId,flux,kind\n"
    wrong = [(0, b"-3"), (0, b"9223372036854775808"), (1, b"-1"), (1, b"+5"), (1, b""), (2, b"x"), (3, b"1125899906842625")]
    queries = [
        "SELECT o.objectId,s.sourceId,s.flux,s.kind FROM Object o,Source s WHERE o.objectId=s.objectId",
        "SELECT s.sourceId,s.objectId,o.z FROM Object o,Source s WHERE s.objectId=o.objectId AND (s.flux IS NULL OR s.kind=3)",
    ]
    text, status, words = "measured", 11, ["sources", "sky", "csv", "measured", "script"]

    def front(self):
        return [self.draw.choice([self.draw.randrange(1, OBJECTS + 1), self.draw.randrange(100000)])]

    @classmethod
    def told(cls, found, objects):
        world = flat_children.Children(objects, *found)
        return flat_answers.text_of(flat_answers.block(lambda: Joined(text, world).block()) for text in cls.queries), None


class Joined(flat_children.ChildBound):
    """A query whose sources are looked up by the id of their object, since there are many."""

    def picks(self):
        objects = {row[0]: dict(zip(self.world.names, row)) for row in self.world.rows}
        sources = (dict(zip(self.world.source_names, row)) for row in self.world.sources if row[1] in objects)
        pairs = sorted(((objects[source["objectId"]], source) for source in sources), key=lambda pair: pair[0]["objectId"])
        return [pair for pair in pairs if self.query.cond.truth(pair) is True]


TABLES = {"catalogue": Rows, "sources": Sources}


def line(row):
    return (",".join(map(str, row)) + "\n").encode()


def quoted(row, col):
    """A line with one field in quotes."""
    fields = row[:-1].split(b",")
    return b",".join([*fields[:col], b'"' + fields[col] + b'"', *fields[col + 1 :]]) + b"\n"


def swept(kind, draw):
    """Texts with a piece in the middle, cut from each of its bytes on by the threads of 3 workers."""
    makers = [
        lambda rows: b"".join(rows),
        lambda rows: b"".join(rows).replace(b"\n", b"\r"),
        lambda rows: b"".join(rows).replace(b"\n", b"\r\n"),
        lambda rows: b"\n\r\n".join([rows[0], rows[1][:-1] + b"\r", rows[2][:-1] + b"\r\r\n\n"]) + rows[3],
        lambda rows: rows[0] + quoted(rows[1], 0) + quoted(rows[2], 3) + rows[3],
    ]
    for number_of, make in enumerate(makers):
        drawn = kind(draw)
        front = b"".join(drawn.lines(LONG // 2))
        piece = make([line(drawn.row()) for _ in range(4)])
        rest = b"".join(drawn.lines(LONG // 2 - len(piece)))
        # lines of 4 threads: the cut is looked for from a half of what follows the header on, rounded down to an even number
        for at in range(0, len(piece) + 2):
            more = max(0, 2 * (len(front) + at) - len(front) - len(piece) - len(rest))
            short = max(0, len(front) + len(piece) + len(rest) - 2 * (len(front) + at))
            yield f"piece {number_of}, byte {at}", kind.header + b"\n" * short + front + piece + rest + b"\n" * more, at % 2


def faults(kind, rows, place):
    """A text with each kind of fault in one line."""
    fields = rows[place][:-1].split(b",")
    for col, wrong in kind.wrong:
        changed = [*fields[:col], wrong, *fields[col + 1 :]]
        yield f"field {col + 1} is {wrong.decode()}", [*rows[:place], b",".join(changed) + b"\n", *rows[place + 1 :]]
    yield "a field less", [*rows[:place], b",".join(fields[:-1]) + b"\n", *rows[place + 1 :]]


def cases(kind, draw):
    """The cases that the head of this file names."""
    rows, header = kind(draw).lines(5 * LONG), kind.header
    text = header + b"".join(rows)
    yield "rising", text
    yield "falling", header + b"".join(reversed(rows))
    shuffled = draw.sample(rows, len(rows))
    yield "shuffled", header + b"".join(shuffled)
    yield "mark in front", b"\xef\xbb\xbf" + text
    yield "no line feed at the end", text[:-1]
    yield "carriage return at the end", text[:-1] + b"\r"
    yield "no line feed", text.replace(b"\n", b"\r")
    yield "a line feed after the header alone", header + b"".join(rows).replace(b"\n", b"\r")
    yield "two line feeds", header + b"".join(rows[:9]).replace(b"\n", b"\r") + b"\n" + b"".join(rows[9:]).replace(b"\n", b"\r")
    yield "CR LF", text.replace(b"\n", b"\r\n")
    yield "empty lines in front", b"\n" * LONG + text
    yield "empty lines behind", text + b"\n" * LONG
    yield "header and empty lines", header + b"\n" * LONG
    yield "empty lines alone", b"\n" * 2 * LONG
    yield "header in quotes", b'"' + text[:8] + b'"' + text[8:]
    yield "header in quotes over two lines", header.replace(b"kind\n", b'"kind\n"\n') + b"".join(rows)
    yield "few long lines", header + rows[0][: rows[0].rindex(b",") + 1] + b"0" * LONG + b"\n" + rows[2]
    yield "wrong header", text.replace(b"flux", b"fl ux", 1)
    yield "NULL from a row on", header + b"".join(rows[:3000]) + b"".join(map(kind.without_flux, rows[3000:]))
    yield "NULL up to a row", header + b"".join(map(kind.without_flux, rows[:3000])) + b"".join(rows[3000:])
    for place in range(1, len(rows), len(rows) // 20):
        fields = rows[place].split(b",")
        open_quote = b",".join([fields[0], b'"' + fields[1], *fields[2:]])
        yield f"quote in line {place}", header + b"".join([*rows[:place], quoted(rows[place], 1), *rows[place + 1 :]])
        yield f"open quote in line {place}", header + b"".join([*rows[:place], open_quote, *rows[place + 1 :]])
        yield f"mark in front of line {place}", header + b"".join([*rows[:place], b"\xef\xbb\xbf", *rows[place:]])
        other = draw.randrange(len(rows))
        twice = b",".join([rows[other].split(b",")[0], *fields[1:]])
        yield f"id of line {other} in line {place}", header + b"".join([*rows[:place], twice, *rows[place + 1 :]])
        again = [*rows[:place], twice, *rows[place + 1 :]]
        yield f"the same, shuffled, line {place}", header + b"".join(draw.sample(again, len(again)))
        for what, lines in faults(kind, rows, place):
            yield f"{what}, line {place}", header + b"".join(lines)
            later = draw.randrange(place, len(lines))
            yield f"{what}, line {place}, a repeat in {later}", header + b"".join([*lines[:later], rows[0], *lines[later:]])
    yield "a fault before a quote", header + b"".join([*rows[:9], b"1,2,3\n", *rows[9:5000], b'"', *rows[5000:]])


def ended(kind, draw):
    """A text of lines without its last bytes, and without its first."""
    lines = [kind.header, *kind(draw).lines(2 * LONG)]
    text = b"".join(lines)
    for count in range(len(lines[-1]) + len(lines[-2]) + 1):
        yield f"{count} bytes cut from the end", text[: len(text) - count]
    for count in range(len(lines[0]) + len(lines[1]) + 1):
        yield f"{count} bytes cut from the front", text[count:]


def random_texts(kind, draw, count):
    for number_of in range(count):
        rows = kind(draw).lines(draw.choice([LONG, 3 * LONG, 9 * LONG]))
        if draw.random() < 0.7:
            draw.shuffle(rows)
        text = bytearray(kind.header + b"".join(rows))
        for _ in range(draw.choice([0, 0, 1, 3])):
            text[draw.randrange(len(text))] = draw.choice(b"\r\n\",0x-")
        yield f"random text {number_of}", bytes(text)


# ---- runs


class Wanted:
    """What the program has to give for a text of a table. Texts of the same rows that follow each other are computed once."""

    def __init__(self, kind, objects):
        self.kind, self.objects, self.made, self.texts = kind, objects, None, None

    def of(self, text):
        """Status, transcript, report and line on standard error."""
        made = table_texts.read(text, self.kind.format)
        if isinstance(made, str):
            return self.kind.status, "", "", made + "\n"
        if made != self.made:
            self.made, self.texts = made, self.kind.told(made, self.objects)
        return 0, *self.texts, ""


def differs(program, folder, name, text, workers, wanted, counts):
    """Whether a run over a text ends otherwise than it has to; says so."""
    kind = wanted.kind
    with open(os.path.join(folder, kind.text), "wb") as file:
        file.write(text)
    status, transcript, report, line_of = wanted.of(text)
    counts["fault" if status else "accepted"] += 1
    asked = [([*kind.words, str(count)], transcript) for count in workers]
    if kind is Rows:
        asked.append((["load", "sky", "csv"], report))
    for words, out in asked:
        ended = subprocess.run([program, *words], cwd=folder, capture_output=True)
        if (ended.returncode, ended.stdout.decode("latin-1"), ended.stderr.decode("latin-1")) != (status, out, line_of):
            print(f"{name}: {' '.join(words)}: status {ended.returncode}, {ended.stderr.decode('latin-1').strip()}; wanted {status}, {line_of.strip()}")
            return True
    return False


def compared(words, table):
    """Whether no text of a table differs; says how many there are."""
    kind, draw, counts = TABLES[table], random.Random(words.seed), collections.Counter()
    drawn = Rows(random.Random(words.seed))
    objects = Rows.header + b"".join(line([number, *drawn.row()[1:]]) for number in range(1, OBJECTS + 1))
    wanted = Wanted(kind, random_worlds.World(SKY, *table_texts.read(objects)))
    for name, text in (("sky", SKY.encode()), ("csv", objects), ("script", "".join(query + "\n" for query in kind.queries).encode())):
        with open(os.path.join(words.folder, name), "wb") as file:
            file.write(text)
    texts = [(name, text, [0, 3] if odd else [1, 3, 16]) for name, text, odd in swept(kind, draw)]
    texts += [(name, text, WORKERS) for name, text in [*cases(kind, draw), *random_texts(kind, draw, words.texts)]]
    texts += [(name, text, [3]) for name, text in ended(kind, draw)]
    for name, text, workers in texts:
        if differs(words.program, words.folder, name, text, workers, wanted, counts):
            print(f"{table}: {name} differs; its texts are in {words.folder}")
            return False
    print(f"{table}: {sum(counts.values())} texts, {counts['accepted']} accepted and {counts['fault']} refused: none differs")
    return True


def main():
    parser = program_words.parser(__doc__, texts=20, seed=1)
    parser.add_argument("--tables", nargs="+", choices=TABLES, default=list(TABLES))
    words = parser.parse_args()
    os.makedirs(words.folder, exist_ok=True)
    return 0 if all([compared(words, table) for table in words.tables]) else 1


if __name__ == "__main__":
    sys.exit(main())
