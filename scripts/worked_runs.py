"""Runs of the program over texts of a few lines, or at their limits, and what they write, found by hand: scripts/worked_rows.py
makes them.

The texts of the folder scripts/worked/ are there for each run; those that a run has of its own have the names sky, csv, script and
journal.
"""
import collections

import worked_demo
import worked_world

# the words of a run, and the texts that it reads, by their names and in pieces, or as how many zeros one is; its status, its
# output or the few that there may be, and its text on standard error
Run = collections.namedtuple("Run", "words texts status outs err")


def done(words, *outs, **texts):
    """A run that writes one of a few texts."""
    return Run(words, texts, 0, outs, "")


def fault(words, status, line, **texts):
    """A run that writes nothing but a line on standard error."""
    return Run(words, texts, status, [""], line + "\n")


# ---- sky plans

SKY = "overlap 5\nstripe -268435472 4 2 2\nstripe 0 4 2 2\n"
LOAD_SKY = ["load", "sky", "catalogue.csv"]
OF_SKY = "6 rows, 3 of 8 chunks\nchunk 0: 1 rows, 4 overlap\nchunk 4: 4 rows, 2 overlap\nchunk 7: 1 rows, 5 overlap\n"
# with the overlap 2 row 5 alone is near chunk 4, at the equator, and row 3, at z = 4, is not near chunk 7
OF_OWN_OVERLAPS = "6 rows, 3 of 8 chunks\nchunk 0: 1 rows, 4 overlap\nchunk 4: 4 rows, 1 overlap\nchunk 7: 1 rows, 4 overlap\n"
# one stripe of one chunk, with the greatest overlap, of which 281474976710656 is the square
ONE_CHUNK = "# sky\noverlap 16777216\n\nstripe -0268435472 1 1 64"
BEYOND = "SELECT a.x FROM Object a,Object b WHERE chord2(a,b)<=281474976710657"


def stripes(count):
    """A sky plan of a number of stripes of one chunk, the least high that they can be but for the last."""
    return "overlap 5\n" + "".join(f"stripe {-268435472 + 64 * stripe} 1 1 1\n" for stripe in range(count))


SKIES = [
    done(LOAD_SKY, OF_SKY, sky=SKY),
    # the last line may lack its end
    done(LOAD_SKY, OF_SKY, sky=SKY.removesuffix("\n")),
    done(["load", "own_overlaps.txt", "catalogue.csv"], OF_OWN_OVERLAPS),
    done(LOAD_SKY, OF_OWN_OVERLAPS, sky="version 2\r\nstripe -268435472 4 2 2 5\r\nstripe 0 4 2 2 2\r\n"),
    done(LOAD_SKY, "6 rows, 1 of 1 chunks\nchunk 0: 6 rows, 0 overlap\n", sky=ONE_CHUNK),
    done(
        ["explain", "sky", "catalogue.csv", "script"],
        "query 1\nrefused: radius 281474976710657 above 281474976710656\n",
        sky=ONE_CHUNK,
        script=BEYOND,
    ),
    # the last of them holds all from z = -268419152 on
    done(LOAD_SKY, "6 rows, 1 of 256 chunks\nchunk 255: 6 rows, 0 overlap\n", sky=stripes(256)),
    # as many bytes as there may be, and one more
    done(LOAD_SKY, OF_SKY, sky=SKY + "#" * (65536 - len(SKY))),
    fault(LOAD_SKY, 6, "sky: too long", sky=SKY + "#" * (65537 - len(SKY))),
    fault(LOAD_SKY, 3, "sky line 258: too many", sky=stripes(257)),
]
# the first fault of a text and its line
SKY_FAULTS = [
    ("", "1: syntax"),
    ("overlap", "1: syntax"),
    ("version 3", "1: syntax"),
    ("version 02\nstripe -268435472 4 2 2 5\n", "1: syntax"),
    ("overlap  5\n", "1: syntax"),
    ("overlap 5\r", "1: syntax"),
    ("overlap 5", "2: syntax"),
    ("overlap 5\nstripe -268435472 4 2", "2: syntax"),
    ("version 2\nstripe -268435472 4 2 2\n", "2: syntax"),
    ("# none\noverlap 5\n", "3: syntax"),
    ("# sky\n \t\n\n", "4: syntax"),
    ("overlap 16777217", "1: overlap"),
    ("overlap 9999999999999999999", "1: overlap"),
    ("version 2\n# low\nstripe 0 2 2 2 -1\n", "3: overlap"),
    ("overlap 5\nstripe 0 2 2 2\nstripe\n", "2: order"),
    ("overlap 5\nstripe -268435472 4 2 2\nstripe -268435472 4 2 2\n", "3: order"),
    ("overlap 5\nstripe -268435472 2 2 2\nstripe 0 4 2 2\n", "2: count"),
]
SKIES += [fault(LOAD_SKY, 3, "sky line " + line, sky=text) for text, line in SKY_FAULTS]

# ---- catalogues

LOAD_CSV = ["load", "sky.txt", "csv"]
FOUR, MOST_ID = "objectId,x,y,z\n", "9223372036854775807"
# a row up to its extra value
FLUX = "objectId,x,y,z,flux\n1,268435456,0,0,"
NONE = "0 rows, 0 of 8 chunks\n"


def rows_of(ids):
    """A catalogue of these ids, each at the same place."""
    return FOUR + "".join(f"{number},268435456,0,0\n" for number in ids.split())


def in_chunk_4(count):
    """The report of a number of rows at that place."""
    return f"{count} rows, 1 of 8 chunks\nchunk 4: {count} rows, 0 overlap\n"


THOUSAND = rows_of(" ".join(f"{number:03}" for number in range(999, -1, -1)))
# the ids 1 to 2110 out of order: more than the 2,047 up to which they are sorted without buckets
SHUFFLED = rows_of(" ".join(str(1009 * number % 2111) for number in range(1, 2111)))
FURTHER = "a,b,c,d,e,f,g,h,i,j,k,l"
ACCEPTED = [
    (rows_of(""), NONE),
    (rows_of("5"), in_chunk_4(1)),
    (rows_of("3 1 2"), in_chunk_4(3)),
    (rows_of("5 9 2 0 7 1"), in_chunk_4(6)),
    (THOUSAND, in_chunk_4(1000)),
    (SHUFFLED, in_chunk_4(2110)),
    # names are compared byte for byte
    (f"objectId,x,y,z,flux,Flux,_9,{'q' * 32}\n", NONE),
    # twelve extra columns, a NULL among their values
    (f"objectId,x,y,z,{FURTHER}\n9,268435456,0,0,1,,-3,4,5,,7,-8,9,,11,12\n", in_chunk_4(1)),
    (FLUX, in_chunk_4(1)),
    ('objectId,x,y,z,f\n1,268435456,0,0,""\n', in_chunk_4(1)),
    # quotes, and no end of the last line
    (FOUR + '1,"268435456",0,0', in_chunk_4(1)),
    # a byte order mark, carriage returns, and lines with nothing
    ("\xef\xbb\xbfobjectId,x,y,z", NONE),
    ('"objectId",x,y,z\r1,268435456,0,0\r2,268435456,0,0', in_chunk_4(2)),
    ("\n\r\nobjectId,x,y,z\r\n\n1,268435456,0,0\r\n\n", in_chunk_4(1)),
    # lines with nothing alone, and a quote or a carriage return in the last line alone
    ("\n\nobjectId,x,y,z\n\n\n1,268435456,0,0\n\n2,268435456,0,0\n\n\n", in_chunk_4(2)),
    (FOUR + '1,268435456,0,0\n2,268435456,0,"0"\n', in_chunk_4(2)),
    (FOUR + "1,268435456,0,0\n2,268435456,0,0\r\n", in_chunk_4(2)),
]
# the first fault of a text and its place
CSV_FAULTS = [
    ("", "header: field 1"),
    (" objectId,x,y,z\n", "header: field 1"),
    ("objectId,x", "header: field 3"),
    ("objectId,x,y,z,f\0\n", "header: field 5"),
    ('objectId,x,y,z,"a""b"\n', "header: field 5"),
    (f"objectId,x,y,z,{FURTHER},m\n", "header: field 17"),
    # a name begins with a letter or a low line, has no blank and up to 32 bytes, and is that of one column
    *((f"objectId,x,y,z,{name}\n", "header: field 5") for name in ["9a", "a b", "q" * 33, "objectId"]),
    ("objectId,x,y,z,flux,flux\n", "header: field 6"),
    (FOUR + "1,268435456,0\n", "row 1: 3 fields"),
    (FLUX.removesuffix(",0,"), "row 1: 3 fields"),
    (FOUR + '""\n', "row 1: 1 fields"),
    (FOUR + "  \n", "row 1: 1 fields"),
    # a line of a comma has two fields, and one with a comma at its end one more; a line with nothing is no row
    (FOUR + ",", "row 1: 2 fields"),
    (FOUR + "1,268435456,0,0,\n", "row 1: 5 fields"),
    (FOUR + "1,268435456,0,0\n\n\n2,268435456,0\n", "row 2: 3 fields"),
    # the quote goes on to the end
    (FOUR + '1,"268435456,0,0\n2,268435456,0,0\n', "row 1: 2 fields"),
    (FOUR + "1,+5,0,0\n", "row 1: field 2 is not a number"),
    ("objectId,x,y,z,flux\n1,268435456,,0,10\n", "row 1: field 3 is not a number"),
    (FOUR + "1,268435456,0,\0\n", "row 1: field 4 is not a number"),
    # a number is an optional minus and 1 to 19 digits: 20 digits, no digit, two minuses, a blank, a point
    (FLUX + "00000000000000000000", "row 1: field 5 is not a number"),
    *((FLUX + text, "row 1: field 5 is not a number") for text in ["-", "--1", "+5", " 5", "1.0"]),
    (FLUX + "9999999999999999999", "row 1: field 5 out of range: 9999999999999999999"),
    (FLUX + "-9999999999999999999", "row 1: field 5 out of range: -9999999999999999999"),
    (FOUR + "-1,268435456,0,0", "row 1: field 1 out of range: -1"),
    (FOUR + "-7,268435456,0,0\n", "row 1: field 1 out of range: -7"),
    (FOUR + "9223372036854775808,268435456,0,0", "row 1: field 1 out of range: 9223372036854775808"),
    (FOUR + "1,268435473,0,0\n", "row 1: field 2 out of range: 268435473"),
    # 17 below 2^28
    (FOUR + "1,268435439,0,0\n", "row 1: length"),
    (FOUR + "1,268435456,0,0\n1,0,0,268435456\n", "row 2: repeated id 1"),
    # after a closing quote a field goes on
    (FOUR + '"12"3,268435456,0,0\n123,268435456,0,0', "row 2: repeated id 123"),
    # of repeated ids and other faults the first by its row; of repeats the first that one before it equals
    (rows_of("1 2 1 4 five 6"), "row 3: repeated id 1"),
    (rows_of("1 2 three 4 2 6"), "row 3: field 1 is not a number"),
    (rows_of("5 9 2 -9 5 9"), "row 4: field 1 out of range: -9"),
    (rows_of("40 7 99 3 7 12"), "row 5: repeated id 7"),
    (rows_of("5 9 2 9 5 1"), "row 4: repeated id 9"),
    (rows_of("0 1 2 3 4 0"), "row 6: repeated id 0"),
    (rows_of("7 7"), "row 2: repeated id 7"),
    (rows_of("1 2 3 2 1"), "row 4: repeated id 2"),
    (rows_of("4 9 9 4"), "row 3: repeated id 9"),
    (rows_of(f"0 {MOST_ID} 0"), "row 3: repeated id 0"),
    (rows_of(f"1 {MOST_ID} 2 0 {MOST_ID}"), "row 5: repeated id " + MOST_ID),
    (THOUSAND + "500,268435456,0,0\n", "row 1001: repeated id 500"),
    (THOUSAND + "500,268435456,0,0\n999,0,0,0\n", "row 1001: repeated id 500"),
    (SHUFFLED + "7,268435456,0,0\n3,268435456,0,0\n3,268435456,0,0\n", "row 2111: repeated id 7"),
]
# a catalogue of 57 bytes, and what it is when it is cut after its first bytes, up to a number of them and without it
WHOLE = "objectId,x,y,z,flux\n7,268435456,0,0,\n3,0,0,-268435456,-5\n"
CUTS = [
    (8, "header: field 1"),
    (10, "header: field 2"),
    (12, "header: field 3"),
    (14, "header: field 4"),
    (15, NONE),
    (16, "header: field 5"),
    (21, NONE),
    (22, "row 1: 1 fields"),
    (32, "row 1: 2 fields"),
    (34, "row 1: 3 fields"),
    (36, "row 1: 4 fields"),
    (38, in_chunk_4(1)),
    (39, "row 2: 1 fields"),
    (41, "row 2: 2 fields"),
    (43, "row 2: 3 fields"),
    (54, "row 2: 4 fields"),
    # the row at the south pole is in chunk 0, to which the other one is near
    (55, "2 rows, 2 of 8 chunks\nchunk 0: 1 rows, 1 overlap\nchunk 4: 1 rows, 0 overlap\n"),
    (56, "row 2: field 5 is not a number"),
    (58, "2 rows, 2 of 8 chunks\nchunk 0: 1 rows, 1 overlap\nchunk 4: 1 rows, 0 overlap\n"),
]
for start, (end, told) in zip([0] + [end for end, _ in CUTS], CUTS):
    (ACCEPTED if told.endswith("\n") else CSV_FAULTS).extend((WHOLE[:cut], told) for cut in range(start, end))
CATALOGUES = [done(LOAD_CSV, told, csv=text) for text, told in ACCEPTED]
CATALOGUES += [fault(LOAD_CSV, 4, "catalogue " + line, csv=text) for text, line in CSV_FAULTS]

# ---- scripts

QUERY = ["query", "sky.txt", "catalogue.csv", "script"]
CLASSES = ["classes", *QUERY[1:]]
EXPLAIN = ["explain", "sky.txt", "catalogue.csv", "script"]
COUNT = "SELECT COUNT(*) FROM Object\n"
NO_CHUNK = "SELECT objectId FROM Object WHERE objectId IN (99)\n"
THREE = "SELECT objectId FROM Object\n" + COUNT + "SELECT MAX(flux) FROM Object\n"
NO_NAME = "query 1\nrefused: unknown name mag\n"
LARGEST = "query 3\nMAX(flux)\n60\n1 rows, 3 chunks\n"
COUNTED_FIRST = "query 1\nCOUNT(*)\n6\n1 rows, 3 chunks\n"


def ends(second):
    """The transcript of the three queries, of which the second ends so."""
    return "query 1\nobjectId\n1\n2\n3\n4\n5\n6\n6 rows, 3 chunks\nquery 2\n" + second + LARGEST


CANCELLED, COUNTED = ends("cancelled\n"), ends("COUNT(*)\n6\n1 rows, 3 chunks\n")
# the numbers of workers, a script, and what it may write
SCRIPTS = [
    ("0", "", ""),
    ("0", "# a note\n\n", ""),
    (
        "0",
        COUNT + "SELECT x FROM Galaxy\nSELECT MAX(flux) FROM Object\n",
        COUNTED_FIRST + "query 2\nrefused: unknown name Galaxy\n" + LARGEST,
    ),
    # a cancel of a query that is refused, and of one that needs no chunk, is skipped
    ("0 1 4 16", "SELECT mag FROM Object\ncancel 1\nwait 1\n", NO_NAME),
    (
        "0 1 4 16",
        NO_CHUNK + "cancel 1\nwait 1\n",
        "query 1\nobjectId\n0 rows, 0 chunks\n",
    ),
    # with no workers a cancel before every wait is in time, and with workers it may be
    ("0", THREE + "cancel 2\nwait 1\n", CANCELLED),
    ("4", THREE + "cancel 2\nwait 1\n", CANCELLED, COUNTED),
    # a wait before a query is started is not between it and its cancel
    (
        "0",
        COUNT + COUNT + "cancel 1\nwait 2\ncancel 2\n" + COUNT + "cancel 3\nwait 3\n",
        "query 1\ncancelled\nquery 2\nCOUNT(*)\n6\n1 rows, 3 chunks\nquery 3\ncancelled\n",
    ),
    # of four queries the first needs no chunk, and two are refused
    (
        "0 4",
        NO_CHUNK + "SELECT mag FROM Object\nwait 2\ncancel 2\n" + COUNT + "SELECT mag FROM Object\ncancel 1\n",
        "query 1\nobjectId\n0 rows, 0 chunks\nquery 2\nrefused: unknown name mag\nquery 3\nCOUNT(*)\n6\n1 rows, 3 chunks\n"
        "query 4\nrefused: unknown name mag\n",
    ),
    # a cut line of a step is a query
    ("0", "cancel", "query 1\nrefused: not a query\n"),
    # a number on a line has up to 9 digits
    ("0", NO_CHUNK + "wait 000000001\nwait 0000000001\n", "query 1\nobjectId\n0 rows, 0 chunks\nquery 2\nrefused: not a query\n"),
    # a carriage return before a line feed is no part of a line, and one at the very end is
    ("0", "SELECT COUNT(*) FROM Object\r\n# a note\nwait 1\r\nwait 1", COUNTED_FIRST),
    ("0", COUNT + "wait 1\r", COUNTED_FIRST + "query 2\nrefused: not a query\n"),
    # a line of as many bytes as there may be, and as many queries
    ("0", "q" * 16384, "query 1\nrefused: not a query\n"),
    ("0", "q\n" * 255, "".join(f"query {number}\nrefused: not a query\n" for number in range(1, 256))),
    # a cancel after a wait for its query is too late
    ("0 4", THREE + "wait 2\ncancel 2\nwait 2\n", COUNTED),
    # one more query than can run at once
    ("0 4", COUNT * 65, "".join(f"query {number}\nCOUNT(*)\n6\n1 rows, 3 chunks\n" for number in range(1, 66))),
]
STEPS = [
    done([*words, workers], *outs, script=text)
    for numbers, text, *outs in SCRIPTS
    for workers in numbers.split()
    for words in (QUERY, CLASSES)
]
# the row of a cut catalogue, without its extra value
STEPS += [
    done(
        ["query", "sky.txt", "csv", "script", "0"],
        "query 1\nobjectId,flux\n1,NULL\n1 rows, 1 chunks\n",
        csv=FLUX,
        script="SELECT objectId,flux FROM Object\n",
    )
]
# a cancel and a wait have no block
OF_THREE = """query 1
chunk: SELECT objectId,objectId FROM Object_c
merge: SELECT c1 FROM pieces ORDER BY c2
chunks: 0 4 7
query 2
chunk: SELECT COUNT(*) FROM Object_c
merge: SELECT SUM(c1) FROM pieces
chunks: 0 4 7
query 3
chunk: SELECT MAX(flux) FROM Object_c
merge: SELECT MAX(c1) FROM pieces
chunks: 0 4 7
"""
STEPS += [done(EXPLAIN, NO_NAME, script="SELECT mag FROM Object\nwait 1\ncancel 1\n")]
STEPS += [done(EXPLAIN, OF_THREE, script=THREE + "cancel 2\nwait 1\n")]
# the first fault of a script and its line
SCRIPT_FAULTS = [
    (THREE + "cancel 2\nwait 1\ncancel 9\n", "6: unknown query 9"),
    ("# none\nwait 1\n", "2: unknown query 1"),
    ("SELECT x FROM Object\nwait 2\n", "2: unknown query 2"),
    ("cancel 256\n", "1: unknown query 256"),
    (COUNT * 256, "256: too many queries"),
    # one byte more than there may be, in a query and in a note
    ("q" * 16385, "1: too long"),
    ("#" * 16385, "1: too long"),
]
STEPS += [
    fault(words, 5, "script line " + line, script=text)
    for text, line in SCRIPT_FAULTS
    for words in ([*QUERY, "0"], [*CLASSES, "0"], EXPLAIN)
]
# A query of 17 chunks is long, and one of one chunk is short: by `classes` they are on two boards.
SEVENTEEN = {
    "sky": "overlap 0\nstripe -268435472 1 1 1\n" + "".join(f"stripe {64 * stripe} 1 1 1\n" for stripe in range(17)),
    "csv": FOUR + "".join(f"{stripe + 1},268435456,0,{64 * stripe}\n" for stripe in range(17)),
    "script": COUNT + "SELECT COUNT(*) FROM Object WHERE objectId = 3\n",
}
OF_SEVENTEEN = "query 1\nCOUNT(*)\n17\n1 rows, 17 chunks\nquery 2\nCOUNT(*)\n1\n1 rows, 1 chunks\n"
STEPS += [
    done([word, "sky", "csv", "script", workers], OF_SEVENTEEN, **SEVENTEEN)
    for word in ("query", "classes")
    for workers in ("0", "4")
]

# ---- the demo

# its one object is drawn around the south pole
OF_ONE_OBJECT = """query 1
COUNT(*),SUM(flux),AVG(flux),MIN(z),MAX(z)
1,20637,20637.0000,-268387185,-268387185
1 rows, 1 chunks
query 2
kind,COUNT(*),MAX(flux)
0 rows, 1 chunks
query 3
objectId,flux
0 rows, 0 chunks
query 4
a.objectId,b.objectId
0 rows, 1 chunks
"""
OF_NO_OBJECT = """query 1
COUNT(*),SUM(flux),AVG(flux),MIN(z),MAX(z)
0,NULL,NULL,NULL,NULL
1 rows, 0 chunks
query 2
kind,COUNT(*),MAX(flux)
0 rows, 0 chunks
query 3
objectId,flux
0 rows, 0 chunks
query 4
a.objectId,b.objectId
0 rows, 0 chunks
"""
DEMOS = [
    done(["demo", count, seed, workers], told)
    for count, seed, told in [
        ("1", "1", OF_ONE_OBJECT),
        ("0", "1", OF_NO_OBJECT),
        (str(worked_demo.COUNT), str(worked_demo.SEED), worked_demo.transcript()),
    ]
    for workers in ["0", "4"]
]

# ---- words and statuses

USAGE = (
    "usage: qserv load SKY CSV; query SKY CSV SCRIPT WORKERS; explain SKY CSV SCRIPT; demo COUNT SEED WORKERS; "
    "sources SKY CSV SOURCES SCRIPT WORKERS; trace SKY CSV SCRIPT WORKERS; check JOURNAL; classes SKY CSV SCRIPT WORKERS"
)
TEXTS = ["sky.txt", "catalogue.csv"]
ANSWERING = ["query", "classes", "trace"]
NO_FORMS = [
    [],
    ["query", "sky.txt"],
    ["load", *TEXTS, "0"],
    ["check"],
    ["check", "sky.txt", "sky.txt"],
    ["checks", "sky.txt"],
    *([word, *QUERY[1:]] for word in ANSWERING),
    [*EXPLAIN, "0"],
    # no number of workers: one too many, a minus, no digit, a digit too many
    *([word, *QUERY[1:], workers] for word in ANSWERING for workers in ["17", "-1", "", "00000000000"]),
    # a row too many, no seed and a seed too many, a worker too many, no number, no digit, a digit too many
    *(["demo", *words.split(" ")] for words in ["4194305 1 0", "1 0 0", "1 2147483647 0", "1 1 17", "1 x 0"]),
    *(["demo", *words.split(" ")] for words in [" 1 0", "00000000001 1 0"]),
]
STATUSES = [fault(words, 2, USAGE, script="") for words in NO_FORMS]
STATUSES += [done(["trace", *QUERY[1:], "16"], "ring 8\n0 close\n", script="")]
STATUSES += [done([*CLASSES, "0000000016"], "", script=""), done([*QUERY, "0000000000"], "", script=""), done([*QUERY, "16"], "", script=""), done(EXPLAIN, "", script="")]
STATUSES += [
    # a catalogue is no sky plan, and a sky plan no catalogue
    fault(["load", "catalogue.csv", "catalogue.csv"], 3, "sky line 1: syntax"),
    fault(["load", "sky.txt", "sky.txt"], 4, "catalogue header: field 1"),
    # the texts are judged in the order of the words
    fault(["load", "sky", "none.csv"], 6, "sky: too long", sky="#" * 65537),
    fault(["load", "sky.txt", "none.csv"], 7, "none.csv: cannot be read"),
    fault(["query", "none", "catalogue.csv", "script", "0"], 7, "none: cannot be read", script=COUNT),
    fault(["query", "sky.txt", "moon", "script", "0"], 7, "moon: cannot be read", script=COUNT),
    fault(["query", "sky.txt", "", "script", "0"], 7, ": cannot be read", script=COUNT),
    fault(["query", *TEXTS, "two ranges", "0"], 7, "two ranges: cannot be read"),
    # a name that no file can have, longer than the buffer of standard error
    fault(["load", "n" * 9000, "catalogue.csv"], 7, "n" * 9000 + ": cannot be read"),
    # a folder is there, and has no text
    *(fault(["load", *words], 7, ".: cannot be read") for words in [[".", "catalogue.csv"], ["sky.txt", "."]]),
    fault(["explain", *TEXTS, "."], 7, ".: cannot be read"),
]

# ---- journals

CHECK = ["check", "journal"]
# query 2 is attached when query 1 was served chunk 0: both are served chunk 4, and query 2 has chunk 0 on the next round
BOARD = """ring 8
0 attach 1 0 4
0 take 0 0 1
0 attach 2 0 4
0 take 1 4 1 2
0 deliver 1
0 deliver 0
0 take 2 0 2
0 deliver 2
0 collect 1
0 collect 2
0 close
"""
# what takes the place of a line of it, by its number, and what is then wrong
CHANGED = [
    ("journal line 8: not a step", {8: "0 take 2 0 1 2"}),
    ("journal line 3: syntax", {3: "0 take 0 0"}),
    # the form of each line is validated before any step
    ("journal line 12: syntax", {3: "0 take 1 0 1", 12: "0 close 1"}),
    ("journal line 1: syntax", {1: "ring 16385"}),
    # a chunk that is not on the ring
    ("journal line 2: not a step", {2: "0 attach 1 0 8"}),
    # the first take is of chunk 0, and the second one, of chunk 4, is also for query 2
    ("journal line 3: not a step", {3: "0 take 0 4 1"}),
    ("journal line 5: not a step", {5: "0 take 1 4 1"}),
    # another seat took the task; it is delivered twice
    ("journal line 6: not a step", {6: "1 deliver 1"}),
    ("journal line 7: not a step", {7: "0 deliver 1"}),
    # query 2 is not in the take of ticket 0
    ("journal line 7: not a step", {7: "0 deliver 0 lost 2"}),
    # of a query that is done, a cancel; of one that runs, a collect
    ("journal line 8: not a step", {8: "0 cancel 1"}),
    ("journal line 8: not a step", {8: "0 collect 2"}),
    # a task that is not taken yet; a query that is attached again
    ("journal line 8: not a step", {8: "0 deliver 2"}),
    ("journal line 12: not a step", {12: "0 attach 1 0 4"}),
    # the last entry; chunks that do not ascend, and a query without a number
    ("journal line 12: not a step", {12: "0 collect 1"}),
    ("journal line 2: syntax", {2: "0 attach 1 4 0"}),
    ("journal line 2: syntax", {2: "0 attach 0 0 4"}),
    ("journal line 2: syntax", {2: "0 attach 256 0 4"}),
    ("journal line 2: syntax", {2: "0  attach 1 0 4"}),
    ("journal line 2: syntax", {2: ""}),
]


def with_lines(lines):
    """The board's journal with other lines in places of these numbers."""
    return "".join(lines.get(number, line) + "\n" for number, line in enumerate(BOARD.splitlines(), 1))


# a cancel and a loss end a query, whose chunks are then taken for the others alone; an attach without chunks is done at once
OF_ENDS = """ring 3
0 attach 1 0 1 2
0 attach 2 1
0 attach 3 1 2
0 attach 4
0 collect 4
0 take 0 0 1
0 cancel 1
2 take 1 1 2 3
2 deliver 1 lost 3
0 deliver 0
0 collect 3
0 collect 1
0 collect 2
0 close
"""
OK = "ok: 11 entries, 2 queries, 3 takes\n"
# a query that got no partial result for its first chunk has no further one, and is collected once
LOST = "ring 2\n0 attach 1 0 1\n0 take 0 0 1\n0 deliver 0 lost 1\n"
FULL = "ring 1\n" + "".join(f"0 attach {query} 0\n" for query in range(1, 65))
JOURNALS = [
    done(CHECK, OK, journal=BOARD),
    done(CHECK, OK, journal=BOARD.replace("\n", "\r\n").removesuffix("\r\n")),
    done(CHECK, OK, journal=BOARD.replace("0 4\n", "000 0000000004\n")),
    done(CHECK, "ok: 14 entries, 4 queries, 2 takes\n", journal=OF_ENDS),
    done(CHECK, "ok: 0 entries, 0 queries, 0 takes\n", journal="ring 16384"),
    done(CHECK, "ok: 1 entries, 0 queries, 0 takes\n", journal="ring 0\n4294967295 close\n"),
    *(fault(CHECK, 12, line, journal=with_lines(lines)) for line, lines in CHANGED),
    done(CHECK, "ok: 4 entries, 1 queries, 1 takes\n", journal=LOST + "0 collect 1\n"),
    fault(CHECK, 12, "journal line 6: not a step", journal=LOST + "0 collect 1\n0 collect 1\n"),
    fault(CHECK, 12, "journal line 5: not a step", journal=LOST + "0 take 1 1 1\n"),
    # after the close nothing is attached, and no other close follows
    fault(CHECK, 12, "journal line 13: not a step", journal=BOARD + "0 attach 3 0\n"),
    fault(CHECK, 12, "journal line 13: not a step", journal=BOARD + "0 close\n"),
    # no more than 64 queries run at once
    done(CHECK, "ok: 64 entries, 64 queries, 0 takes\n", journal=FULL),
    fault(CHECK, 12, "journal line 66: not a step", journal=FULL + "0 attach 65 0\n"),
    fault(CHECK, 12, "journal line 1: syntax", journal=""),
    fault(CHECK, 12, "journal line 13: syntax", journal=BOARD + "\r"),
    fault(["check", "catalogue.csv"], 12, "journal line 1: syntax"),
    fault(["check", "none"], 7, "none: cannot be read"),
    fault(["check", ""], 7, ": cannot be read"),
    fault(CHECK, 12, "journal line 1: syntax", journal=536870912),
    fault(CHECK, 6, "journal: too long", journal=536870913),
]


def cancelled_after(made):
    """The journal of the board up to so many entries, and then a cancel of query 1."""
    before = BOARD.splitlines(keepends=True)[: made + 1]
    text = "".join([*before, "0 cancel 1\n"])
    # it runs from its attach, the first entry, to the deliver of its last chunk, the sixth
    if not 1 <= made <= 5:
        return fault(CHECK, 12, f"journal line {made + 2}: not a step", journal=text)
    queries, takes = (sum(f" {word} " in line for line in before) for word in ("attach", "take"))
    return done(CHECK, f"ok: {made + 1} entries, {queries} queries, {takes} takes\n", journal=text)


JOURNALS += map(cancelled_after, range(9))

# a script that is traced, how many of its queries are attached, and the numbers of workers
TRACED_SCRIPT = THREE + "cancel 2\nwait 1\n"
TRACED_QUERIES = 3
TRACED = ["0", "4"]

RUNS = SKIES + CATALOGUES + STEPS + DEMOS + STATUSES + JOURNALS
RUNS.append(done(["load", "sky", "csv"], worked_world.report(), sky=worked_world.SKY, csv=worked_world.CSV))
# whatever is written to the full device fails
OUTPUT_FAILED = fault(["load", *TEXTS], 8, "output failed")
