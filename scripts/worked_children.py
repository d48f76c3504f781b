"""Runs of `sources` over texts of a few lines, or at their limits, and what they write, found by hand: scripts/worked_rows.py makes
them.

The sky and the catalogue are those of the folder scripts/worked/ where a run has none of its own. The objects 1 to 6 have the fluxes
10 to 60. They are in chunks 4, 4, 4, 7, 0 and 4.
"""
import itertools

from worked_runs import FOUR, MOST_ID, SKY, USAGE, done, fault

# two sources of object 1, one each of objects 4 and 5, and one of no object
FIVE = "sourceId,objectId,flux,t\n101,1,11,1\n102,4,41,1\n103,1,12,2\n104,99,5,2\n105,5,51,2\n"
HEAD = "sourceId,objectId\n"
SOURCES = ["sources", "sky.txt", "catalogue.csv", "measured", "script"]
WORKERS, MORE_WORKERS = ["0", "4"], ["0", "1", "2", "4", "16", "0000000004"]
JOINED = "FROM Object o,Source s WHERE o.objectId=s.objectId"
GAINS = f"SELECT o.objectId,s.sourceId,s.flux-o.flux {JOINED}"
IDS = f"SELECT s.sourceId {JOINED}"
OF_GAINS = "o.objectId,s.sourceId,s.flux-o.flux"


# a query over the five sources, and the lines of its block
ROWS = [
    (GAINS, [OF_GAINS, "1,101,1", "1,103,2", "4,102,1", "5,105,1", "4 rows, 3 chunks"]),
    (GAINS + " AND area_cap(268435456,0,0,0)", [OF_GAINS, "1,101,1", "1,103,2", "2 rows, 2 chunks"]),
    (GAINS + " AND o.objectId=4", [OF_GAINS, "4,102,1", "1 rows, 1 chunks"]),
    ("SELECT o.x FROM Object o,Source s WHERE o.x=s.flux", ["refused: join form"]),
    # an id of a source's object is a condition, and no choice of chunks; ids of no object have no chunk
    (GAINS + " AND s.objectId=4", [OF_GAINS, "4,102,1", "1 rows, 3 chunks"]),
    (GAINS + " AND o.objectId IN (4,99) AND s.t=2", [OF_GAINS, "0 rows, 1 chunks"]),
    (GAINS + " AND o.objectId=99", [OF_GAINS, "0 rows, 0 chunks"]),
    (f"{IDS} AND s.objectId=99", ["s.sourceId", "0 rows, 3 chunks"]),
    (GAINS + " AND s.t=2 ORDER BY s.flux DESC LIMIT 1", [OF_GAINS, "5,105,1", "1 rows, 3 chunks"]),
    (GAINS + " AND area_band(0,268435472)", [OF_GAINS, "1,101,1", "1,103,2", "4,102,1", "3 rows, 2 chunks"]),
    # by the key first, then by the object and by the source
    (f"{IDS} ORDER BY s.t DESC", ["s.sourceId", "103", "105", "101", "102", "4 rows, 3 chunks"]),
    (f"{IDS} ORDER BY o.flux DESC LIMIT 3", ["s.sourceId", "105", "102", "101", "3 rows, 3 chunks"]),
    (f"SELECT s.sourceId,0-s.flux AS k {JOINED} ORDER BY k LIMIT 2", ["s.sourceId,k", "105,-51", "102,-41", "2 rows, 3 chunks"]),
    (f"{IDS} LIMIT 0", ["s.sourceId", "0 rows, 3 chunks"]),
    # written otherwise: AS, brackets, the other order, other blanks
    ("select S.t+0 as t from Object as O , Source as S where ((S.objectId=O.objectId)) and S.t<>1;", ["t", "2", "2", "2 rows, 3 chunks"]),
    # the alias of a table may be the name of the other one
    (
        "SELECT Source.flux,Object.flux FROM Object Source,Source Object WHERE Source.objectId=Object.objectId AND Object.t=2",
        ["Source.flux,Object.flux", "10,12", "50,51", "2 rows, 3 chunks"],
    ),
]
# An unknown name: of a column, of a table, and of a column that only the other table has. The first one in the text is named.
REFUSED = [
    (f"SELECT s.mag {JOINED}", "unknown name s.mag"),
    (f"SELECT s.x {JOINED}", "unknown name s.x"),
    (f"SELECT o.t {JOINED}", "unknown name o.t"),
    (f"SELECT t,mag {JOINED}", "unknown name mag"),
    (f"SELECT p.t {JOINED}", "unknown name p.t"),
    ("SELECT o.x FROM Objects o,Source s WHERE o.objectId=s.objectId", "unknown name o.x"),
    ("SELECT s.t FROM Objects o,Source s", "unknown name Objects"),
    (f"SELECT s.t {JOINED} AND chord2(o,q)<=9", "unknown name q"),
    (f"SELECT SUM(s.mag) {JOINED}", "unknown name s.mag"),
    # no pair of an object with its sources
    ("SELECT x FROM Object", "join form"),
    ("SELECT sourceId FROM Source", "join form"),
    ("SELECT COUNT(*) FROM Object", "join form"),
    ("SELECT s.t FROM Source s,Object o WHERE o.objectId=s.objectId", "join form"),
    ("SELECT a.x FROM Object a,Object b WHERE a.objectId=b.objectId", "join form"),
    ("SELECT o.x FROM Object o,Source WHERE o.objectId=Source.objectId", "join form"),
    ("SELECT o.x FROM Object o,Source o WHERE o.objectId=o.objectId", "join form"),
    (f"SELECT t {JOINED}", "join form"),
    (f"SELECT * {JOINED}", "join form"),
    (f"SELECT COUNT(*) {JOINED}", "join form"),
    (f"SELECT s.t {JOINED} GROUP BY s.t", "join form"),
    (f"SELECT s.t {JOINED} AND chord2(o,s)<=9", "join form"),
    ("SELECT s.t FROM Object o,Source s", "join form"),
    (f"SELECT s.t {JOINED} AND s.objectId=o.objectId", "join form"),
    (f"SELECT s.t {JOINED} OR s.t=1", "join form"),
    ("SELECT s.t FROM Object o,Source s WHERE NOT o.objectId=s.objectId", "join form"),
    ("SELECT s.t FROM Object o,Source s WHERE o.objectId<=s.objectId", "join form"),
    ("SELECT s.t FROM Object o,Source s WHERE o.objectId=-s.objectId", "join form"),
    ("SELECT s.t FROM Object o,Source s WHERE (o.objectId)=s.objectId", "join form"),
    ("SELECT s.t FROM Object o,Source s WHERE o.objectId=s.sourceId", "join form"),
    ("SELECT s.t FROM Object o,Source s WHERE s.objectId=s.objectId", "join form"),
    # an area test of another form, a product beyond 2^100, and an order key that is no column and no alias
    (f"SELECT s.t {JOINED} AND NOT area_band(1,2)", "area form area_band"),
    (f"SELECT s.t {JOINED} AND AREA_CAP(1,2,3)", "area form AREA_CAP"),
    (f"SELECT s.sourceId*s.objectId {JOINED}", "expression too wide"),
    (f"SELECT s.flux*o.flux*2 {JOINED}", "expression too wide"),
    (f"SELECT s.t AS k {JOINED} ORDER BY t", "unknown order key t"),
    (f"SELECT s.t {JOINED} ORDER BY s.x", "unknown order key s.x"),
    (f"SELECT s.t {JOINED} ORDER BY p . t", "unknown order key p . t"),
    # of two faults the earlier one of: name, form, area, width, order
    ("SELECT s.mag FROM Source s,Object o", "unknown name s.mag"),
    ("SELECT s.t FROM Object o,Source s WHERE area_band(1)", "join form"),
    (f"SELECT s.objectId*o.objectId {JOINED} AND area_band(1)", "area form area_band"),
    (f"SELECT s.objectId*o.objectId {JOINED} ORDER BY t", "expression too wide"),
    ("SELECT s.objectId*o.objectId FROM Object o,Source s", "join form"),
]
ROWS += [(query, [f"refused: {why}"]) for query, why in REFUSED]


def over(rows):
    """A script of queries and its transcript."""
    script = "".join(query + "\n" for query, _ in rows)
    return script, "".join("\n".join([f"query {number}", *lines]) + "\n" for number, (_, lines) in enumerate(rows, 1))


SCRIPT, TRANSCRIPT = over(ROWS)
ANSWERS = [done([*SOURCES, workers], TRANSCRIPT, measured=FIVE, script=SCRIPT) for workers in MORE_WORKERS]
# NULL is before all numbers, or after them in a descending order; a test of it is of no truth, and so is a test of its negation
WITH_NULL = "sourceId,objectId,flux\n7,4,\n5,1,3\n8,4,2\n6,5,\n"
OF_NULL = [
    (f"SELECT s.sourceId,s.flux {JOINED} ORDER BY s.flux", ["s.sourceId,s.flux", "7,NULL", "6,NULL", "8,2", "5,3", "4 rows, 3 chunks"]),
    (f"{IDS} ORDER BY s.flux DESC", ["s.sourceId", "5", "8", "7", "6", "4 rows, 3 chunks"]),
    (f"{IDS} AND NOT s.flux=2", ["s.sourceId", "5", "1 rows, 3 chunks"]),
    (f"SELECT s.flux*0 {JOINED} AND s.flux IS NULL", ["s.flux*0", "NULL", "NULL", "2 rows, 3 chunks"]),
]
ANSWERS += [done([*SOURCES, workers], over(OF_NULL)[1], measured=WITH_NULL, script=over(OF_NULL)[0]) for workers in WORKERS]
# with no workers a cancel before every wait is in time, and with workers it may be; a wait for a query comes first
THREE = GAINS + " AND o.objectId=4\n" + f"{IDS} LIMIT 1\n" * 2
OF_FIRST = f"query 1\n{OF_GAINS}\n4,102,1\n1 rows, 1 chunks\n"
OF_ONE = "query {}\ns.sourceId\n101\n1 rows, 3 chunks\n"
CANCELLED = OF_FIRST + "query 2\ncancelled\n" + OF_ONE.format(3)
WHOLE = OF_FIRST + OF_ONE.format(2) + OF_ONE.format(3)
STEPS = [
    done([*SOURCES, "0"], CANCELLED, measured=FIVE, script=THREE + "cancel 2\nwait 1\n"),
    done([*SOURCES, "4"], CANCELLED, WHOLE, measured=FIVE, script=THREE + "cancel 2\nwait 1\n"),
    *(done([*SOURCES, workers], WHOLE, measured=FIVE, script=THREE + "wait 2\ncancel 2\n") for workers in WORKERS),
    *(done([*SOURCES, workers], "", measured=FIVE, script="# none\n") for workers in WORKERS),
    # more queries than run at once
    done([*SOURCES, "4"], over([(f"{IDS} AND s.t=1", ["s.sourceId", "101", "102", "2 rows, 3 chunks"])] * 65)[1], measured=FIVE, script=f"{IDS} AND s.t=1\n" * 65),
]

# ---- texts of sources

# a query whose text fits all of them, and the sourceIds that it finds
ALL = f"SELECT s.sourceId {JOINED}\n"
ACCEPTED = [
    (HEAD, ""),
    (HEAD.strip(), ""),
    (HEAD + "7,1", "7"),
    # rows in any order; an id of no object; the largest ids
    (HEAD + f"9,2\n{MOST_ID},1\n3,{MOST_ID}\n0,1\n", f"0 {MOST_ID} 9"),
    ('\xef\xbb\xbf"sourceId",objectId\r\n\r\n7,"1"\r\n8,1\r2,1', "2 7 8"),
    # names of the objects' columns, twelve of them, NULL and the ends of the range
    ("sourceId,objectId,x,y,z,flux\n1,1,,1125899906842624,-1125899906842624,\"\"\n", "1"),
    ("sourceId,objectId,a,b,c,d,e,f,g,h,i,j,k,l\n1,1,1,2,3,4,5,6,7,8,9,10,11,12\n", "1"),
    ("sourceId,objectId,select,from\n01,001,1,2\n", "1"),
]
FAULTS = [
    ("", "header: field 1"),
    ("\n\r\n", "header: field 1"),
    ("objectId,sourceId\n", "header: field 1"),
    ("sourceId\n", "header: field 2"),
    ("sourceId,flux\n", "header: field 2"),
    *((HEAD.strip() + f",{name}\n", "header: field 3") for name in ["9a", "a b", "q" * 33, "objectId", "sourceId", ""]),
    (HEAD.strip() + ",flux,flux\n", "header: field 4"),
    (HEAD.strip() + ",a,b,c,d,e,f,g,h,i,j,k,l,m\n", "header: field 15"),
    (HEAD + "1\n", "row 1: 1 fields"),
    (HEAD + "1,2,3\n", "row 1: 3 fields"),
    (HEAD + "1,1\n2\n", "row 2: 1 fields"),
    (HEAD + "x,1\n", "row 1: field 1 is not a number"),
    (HEAD + ",1\n", "row 1: field 1 is not a number"),
    (HEAD + "1,\n", "row 1: field 2 is not a number"),
    (FIVE + "106,1,+5,1\n", "row 6: field 3 is not a number"),
    (HEAD + "9223372036854775808,1\n", "row 1: field 1 out of range: 9223372036854775808"),
    (HEAD + "1,9223372036854775808\n", "row 1: field 2 out of range: 9223372036854775808"),
    (HEAD + "-1,1\n", "row 1: field 1 out of range: -1"),
    (HEAD + "1,-1\n", "row 1: field 2 out of range: -1"),
    (FIVE + "106,1,1,1125899906842625\n", "row 6: field 4 out of range: 1125899906842625"),
    ("sourceId,objectId,flux,t\n101,1,11,1\n101,4,41,1\n", "row 2: repeated id 101"),
    (FIVE + "101,1,1,1\n", "row 6: repeated id 101"),
    (FIVE + "0101,1,1\n", "row 6: 3 fields"),
    # of two faults in a row, fields before repeats; of two rows the first
    (HEAD + "1,1\n1,x\n", "row 2: field 2 is not a number"),
    (HEAD + "1,1\n1,1\n2,x\n", "row 2: repeated id 1"),
]
TEXTS = [
    done([*SOURCES, workers], over([(ALL.strip(), ["s.sourceId", *found.split(), f"{len(found.split())} rows, 3 chunks"])])[1], measured=text, script=ALL)
    for text, found in ACCEPTED
    for workers in WORKERS
]
TEXTS += [fault([*SOURCES, "0"], 11, "sources " + line, measured=text, script=ALL) for text, line in FAULTS]
# without objects there is no chunk
TEXTS += [
    done([*SOURCES[:2], "csv", *SOURCES[3:], workers], "query 1\ns.sourceId\n0 rows, 0 chunks\n", csv=FOUR, measured=FIVE, script=ALL)
    for workers in WORKERS
]

# ---- words, statuses and limits

OF_WORDS = [fault([*SOURCES, *more], 2, USAGE, measured=FIVE, script=ALL) for more in [[], ["17"], ["-1"], ["x"], ["00000000000"], ["0", "0"]]]
OF_WORDS += [fault(words, 2, USAGE, script=ALL) for words in [["sources", "sky.txt", "catalogue.csv", "script", "0"], ["source", *SOURCES[1:], "0"]]]
OF_WORDS += [
    # the texts are judged in the order of the words
    fault(["sources", "sky", "none", "none", "none", "0"], 3, "sky line 1: syntax", sky=""),
    fault(["sources", "sky.txt", "csv", "none", "none", "0"], 4, "catalogue header: field 1", csv=""),
    fault(["sources", "sky.txt", "catalogue.csv", "none", "none", "0"], 7, "none: cannot be read"),
    fault(["sources", "sky.txt", "catalogue.csv", "", "script", "0"], 7, ": cannot be read", script=ALL),
    fault(["sources", "sky.txt", "catalogue.csv", ".", "script", "0"], 7, ".: cannot be read", script=ALL),
    fault(["sources", "sky.txt", "catalogue.csv", "measured", "none", "0"], 11, "sources header: field 1", measured=""),
    fault(["sources", "sky.txt", "catalogue.csv", "measured", "none", "0"], 7, "none: cannot be read", measured=FIVE),
    fault([*SOURCES, "0"], 5, "script line 1: unknown query 1", measured=FIVE, script="wait 1\n"),
    fault(["sources", "sky", "catalogue.csv", "measured", "script", "0"], 6, "sky: too long", sky=SKY + "#" * 65536, measured="", script=""),
    # a text of as many bytes as there may be is read, and one more is not: zeros are no header
    fault([*SOURCES, "0"], 11, "sources header: field 1", measured=536870912, script=ALL),
    fault([*SOURCES, "0"], 6, "measured: too long", measured=536870913, script=ALL),
]
# the last four of as many sources as there may be
LAST = f"SELECT s.sourceId,o.objectId {JOINED} AND s.sourceId>=4194300\n"
OF_LAST = "query 1\ns.sourceId,o.objectId\n4194300,1\n4194301,2\n4194302,3\n4194303,4\n4 rows, 3 chunks\n"


def rows(count):
    """A source table of so many rows, in its pieces: each object has a sixth of them."""
    return itertools.chain([HEAD], (f"{number},{number % 6 + 1}\n" for number in range(count)))


def runs():
    """All runs."""
    most = [done([*SOURCES, workers], OF_LAST, measured=rows(4194304), script=LAST) for workers in WORKERS]
    more = [fault([*SOURCES, "0"], 11, "sources: too many rows", measured=rows(4194305), script=LAST)]
    return ANSWERS + STEPS + TEXTS + OF_WORDS + most + more
