"""Runs of the program over texts at each limit, and one beyond it, and what they write, found by hand: scripts/worked_rows.py
makes them. Those of the language are rows of scripts/worked/. What the largest demo writes is computed.
"""
import itertools

import worked_demo
import worked_laps
from worked_runs import CHECK, EXPLAIN, FOUR, LOAD_CSV, LOAD_SKY, MOST_ID, OF_NO_OBJECT, USAGE, done, fault, in_chunk_4

# ---- sky plans

# With as many chunks as there may be, row 5 is in the lowest stripe, and rows 1 to 4 in the next one. Rows 1 and 3, with y = 0,
# are on the border of the last wedge of their stripe, which holds row 4. Row 6, at the pole, is in the first chunk of the last
# stripe.
REPORT_OF_MOST_CHUNKS = """6 rows, 4 of 16384 chunks
chunk 0: 1 rows, 0 overlap
chunk 1024: 3 rows, 0 overlap
chunk 2047: 1 rows, 2 overlap
chunk 15360: 1 rows, 0 overlap
"""
LOAD_NONE = ["load", "sky", "no_rows.csv"]
# a plan, and how many chunks it has or the place and name of its first fault; the last z is 268435472
PLANS = [
    ("overlap 0\nstripe -268435472 1 1 1\n", 1),
    ("overlap 16777216\nstripe -268435472 1 1 1\n", 1),
    ("overlap -1\nstripe -268435472 1 1 1\n", "1: overlap"),
    ("version 2\nstripe -268435472 1 1 1 16777216\n", 1),
    ("version 2\nstripe -268435472 1 1 1 16777217\n", "2: overlap"),
    ("overlap 0\nstripe -268435471 1 1 1\n", "2: order"),
    ("overlap 0\nstripe -268435473 1 1 1\n", "2: order"),
    # a stripe of 64 heights and one of 63, below another and as the last one
    ("overlap 0\nstripe -268435472 1 1 1\nstripe -268435408 1 1 1\n", 2),
    ("overlap 0\nstripe -268435472 1 1 1\nstripe -268435409 1 1 1\n", "3: order"),
    ("overlap 0\nstripe -268435472 1 1 1\nstripe 268435409 1 1 1\n", 2),
    ("overlap 0\nstripe -268435472 1 1 1\nstripe 268435410 1 1 1\n", "3: order"),
]
# the chunks, columns and rows of a stripe, and how many chunks that are, or 0 if it may not have them
STRIPES = [
    ("1024 64 64", 1024),
    ("3 1 1", 3),
    ("1 3 1", 1),
    *((words, 0) for words in ["1025 1 1", "2 1 1", "0 1 1", "-1 1 1", "1 2 1", "3 65 1", "3 0 1", "3 1 65", "3 1 0"]),
]
PLANS += [(f"overlap 0\nstripe -268435472 {words}\n", chunks or "2: count") for words, chunks in STRIPES]
SKIES = [
    done(LOAD_NONE, f"0 rows, 0 of {told} chunks\n", sky=text)
    if isinstance(told, int)
    else fault(LOAD_NONE, 3, f"sky line {told}", sky=text)
    for text, told in PLANS
]
SKIES += [
    done(LOAD_SKY, REPORT_OF_MOST_CHUNKS, sky=worked_laps.SKY),
    # one chunk too many, on the line after the 17
    fault(LOAD_SKY, 3, "sky line 18: too many", sky=worked_laps.SKY + "stripe 960 1 1 1\n"),
]

# ---- catalogues

# the first row, with an extra value; those of size 2^50, and the squared lengths (2^28 - 16)^2 and (2^28 + 16)^2, are the ends
IN_RANGE = [
    "0,268435456,0,0,0",
    f"{MOST_ID},268435456,0,0,",
    "1,268435456,0,0,1125899906842624",
    "1,268435456,0,0,-1125899906842624",
    "1,268435472,0,0,0",
    "1,268435440,0,0,0",
    "1,0,0,268435472,0",
]
OUT_OF_RANGE = [
    ("9223372036854775808,268435456,0,0,0", "field 1 out of range: 9223372036854775808"),
    ("-1,268435456,0,0,0", "field 1 out of range: -1"),
    ("1,268435456,0,0,1125899906842625", "field 5 out of range: 1125899906842625"),
    ("1,268435456,0,0,-1125899906842625", "field 5 out of range: -1125899906842625"),
    ("1,-268435473,0,0,0", "field 2 out of range: -268435473"),
    ("1,0,268435473,0,0", "field 3 out of range: 268435473"),
    ("1,0,0,-268435473,0", "field 4 out of range: -268435473"),
    ("1,268435472,1,0,0", "length"),
    ("1,0,-1,268435472,0", "length"),
    ("1,268435439,0,0,0", "length"),
]
HEAD = "objectId,x,y,z,flux\n"


def rows(count):
    """A catalogue of so many rows, in its pieces."""
    return itertools.chain([FOUR], map("%d,268435456,0,0\n".__mod__, range(count)))


CATALOGUES = [done(LOAD_CSV, in_chunk_4(1), csv=HEAD + row) for row in IN_RANGE]
CATALOGUES += [fault(LOAD_CSV, 4, f"catalogue row 1: {told}", csv=HEAD + row) for row, told in OUT_OF_RANGE]
CATALOGUES += [
    done(LOAD_CSV, in_chunk_4(4194304), csv=rows(4194304)),
    # the row's number is not written
    fault(LOAD_CSV, 4, "catalogue: too many rows", csv=rows(4194305)),
    # a text of as many bytes as there may be is read: zeros are no header
    fault(LOAD_CSV, 4, "catalogue header: field 1", csv=536870912),
    fault(LOAD_CSV, 6, "csv: too long", csv=536870913),
]

# ---- scripts, the demo and journals

# a script of as many bytes as there may be: notes of 32 bytes
MOST_NOTES = ("#" * 31 + "\n") * 262144
LAPS = {"sky": worked_laps.SKY, "csv": worked_laps.CSV, "script": worked_laps.SCRIPT}
SCRIPTS = [
    # as many queries as there may be, over a row in each chunk
    *(
        done([word, "sky", "csv", "script", workers], worked_laps.TRANSCRIPT, **LAPS)
        for word in ("query", "classes")
        for workers in ("0", "4")
    ),
    # notes ask nothing
    done(EXPLAIN, "", script=MOST_NOTES),
    fault(EXPLAIN, 6, "script: too long", script=MOST_NOTES + "\n"),
    fault(EXPLAIN, 5, "script line 256: unknown query 256", script="q\n" * 255 + "wait 256\n"),
]
DEMOS = [done(["demo", "0", seed, "16"], OF_NO_OBJECT) for seed in ["1", "2147483646"]]
DEMOS += [fault(["demo", "4194305", str(worked_demo.SEED), "4"], 2, USAGE)]
# the lines after `ring 16384`, and how many entries and queries they are, or none if the line is no entry
ENTRIES = [
    ("4294967295 attach 255 0 16383\n", (1, 1)),
    ("4294967296 close\n", None),
    ("00000000000 close\n", None),
    ("0 attach 256 0\n", None),
    ("0 attach 1 4294967296\n", None),
]
JOURNALS = [
    done(CHECK, "ok: %d entries, %d queries, 0 takes\n" % told, journal="ring 16384\n" + line)
    if told
    else fault(CHECK, 12, "journal line 2: syntax", journal="ring 16384\n" + line)
    for line, told in ENTRIES
]
# a chunk that is not on the ring, and a number that a chunk may have
JOURNALS += [
    fault(CHECK, 12, "journal line 2: not a step", journal=f"ring 16384\n0 attach 1 {chunk}\n") for chunk in [16384, 4294967295]
]



def runs():
    """All runs. What the largest demo writes is computed when this is called."""
    told = worked_demo.largest()
    largest = [done(["demo", str(worked_demo.LARGEST), str(worked_demo.SEED), workers], told) for workers in ["0", "4"]]
    return SKIES + CATALOGUES + SCRIPTS + DEMOS + largest + JOURNALS
