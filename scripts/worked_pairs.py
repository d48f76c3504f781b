"""Catalogues on one line of the sky, four units between neighbours, whose ids are in another order: the pairs of neighbours, and the
rows, with ids of all sizes. scripts/worked_rows.py runs the program over them.

Rows and pairs are put in order by 64 bits if all their ids have at most 32, and else by all their bits. The catalogues differ in that:
ids from 0 on, around 2^32, up to the greatest, and from 0 on but for one. The rows are in two chunks, which meet where y is 0.
"""
SKY = "overlap 5\nstripe -268435472 8 2 2\n"
COUNT = 600
# prime to the number of rows
STEP = 263
LEAST = {"low": 0, "around": (1 << 32) - COUNT // 2, "high": (1 << 63) - COUNT}


def ids(kind):
    """The id of each row, from the first place on."""
    if kind == "one":
        return [(1 << 40) if number == COUNT // 2 else id_ for number, id_ in enumerate(ids("low"))]
    return [LEAST[kind] + STEP * number % COUNT for number in range(COUNT)]


def places():
    """The y of each row."""
    return [4 * number - 2 * COUNT for number in range(COUNT)]


def csv(kind):
    rows = sorted(zip(ids(kind), places()))
    return "objectId,x,y,z\n" + "".join(f"{id_},268435456,{y},3\n" for id_, y in rows)


def queries(kind):
    """The pairs of neighbours, each once, and from both sides with the pair of each row and itself, and the rows by id and by place, with
    the lines of their blocks."""
    own, rows = ids(kind), sorted(zip(ids(kind), places()))
    sides = sorted([*zip(own, own[1:]), *zip(own[1:], own), *zip(own, own)])
    once = [pair for pair in sides if pair[0] < pair[1]]
    head, near = "SELECT a.objectId,b.objectId FROM Object a,Object b WHERE chord2(a,b)<=16", "a.objectId,b.objectId"
    found = [(f"{head} AND a.objectId<b.objectId", near, once), (head, near, sides)]
    found.append(("SELECT objectId,y FROM Object WHERE z>0", "objectId,y", rows))
    found.append(("SELECT objectId,y FROM Object ORDER BY y DESC", "objectId,y", sorted(rows, key=lambda row: -row[1])))
    for query, names, answer in found:
        yield query, [names, *(f"{one},{other}" for one, other in answer), f"{len(answer)} rows, 2 chunks"]
