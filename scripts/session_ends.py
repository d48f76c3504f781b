"""Which transcripts a script of queries, wait lines and cancel lines may have: from its lines alone, and from the answers
over the flat table.

A query is refused where it has a refusal, and else answered. Two ends come beside that, and only for a query that has chunks
to be scanned: one that is bound, whose radius is allowed, and whose plan isn't empty.
- `cancelled` may be there if a line cancels it and no line that waits for it comes before that. With no workers it has to
  be there if no line that waits for any query comes before that, in a script of at most 64 queries.
- `out of memory` may be there if a request for memory was refused.
"""
import re

import flat_answers
from sql_trees import Refused

LINE = re.compile(r"(wait|cancel) ([0-9]{1,9})")
# how many queries run at once
MOST_RUNNING = 64
CANCELLED, SPENT = "cancelled", "out of memory"


def steps_of(lines):
    """The steps of a script with these lines, none of which is a note: pairs of a word and a number or a query's line."""
    matches = [(line, LINE.fullmatch(line)) for line in lines]
    return [(match[1], int(match[2])) if match else ("query", line) for line, match in matches]


def asked(line, world, bind=flat_answers.Bound):
    """The lines that a query's block has where the query isn't cancelled, and whether it has chunks to be scanned."""
    try:
        bound = bind(line, world)
        bound.check_radius()
    except Refused as refusal:
        return [str(refusal)], False
    return flat_answers.block(bound.block), bool(bound.plan())


def behind(steps, number):
    """The steps after the query of a number."""
    places = [place for place, (word, _) in enumerate(steps) if word == "query"]
    return steps[places[number - 1] + 1 :]


def may_be_cancelled(steps, number):
    """Whether a line cancels the query, before any line that waits for it."""
    named = [word for word, other in behind(steps, number) if other == number]
    return named[:1] == ["cancel"]


def is_cancelled_alone(steps, number):
    """Whether that has to be its end with no workers."""
    others = [step for step in behind(steps, number) if step[0] == "wait" or step == ("cancel", number)]
    return others[:1] == [("cancel", number)] and sum(word == "query" for word, _ in steps) <= MOST_RUNNING


def ends(steps, number, workers, block, has_work, may_be_spent):
    """The ends that a query may have, each with the lines of its block."""
    found = {} if has_work and workers == 0 and is_cancelled_alone(steps, number) else {"told": block}
    if has_work and may_be_cancelled(steps, number):
        found[CANCELLED] = [CANCELLED]
    if has_work and may_be_spent:
        found[SPENT] = [SPENT]
    return found


def choices(world, lines, workers, may_be_spent=False):
    """For each query of a script with these lines the ends that it may have, each with the text of its block."""
    steps = steps_of(lines)
    return chosen(steps, [asked(text, world) for word, text in steps if word == "query"], workers, may_be_spent)


def chosen(steps, blocks, workers, may_be_spent=False):
    """The same, of steps whose queries have these blocks."""
    found = []
    for number, (block, has_work) in enumerate(blocks, 1):
        own = ends(steps, number, workers, block, has_work, may_be_spent)
        found.append({end: "\n".join([f"query {number}", *told]) + "\n" for end, told in own.items()})
    return found


def ends_told(text, found):
    """How the queries end in a transcript, where it is one that these choices allow; else the number of the first query whose
    block is another, or 0 if there is something after the last."""
    paths = {0: []}
    for number, own in enumerate(found, 1):
        further = {}
        for place, before in paths.items():
            for end, block in own.items():
                if text.startswith(block, place):
                    further[place + len(block)] = before + [end]
        if not further:
            return number
        paths = further
    return paths.get(len(text), 0)
