"""The pairs that stand at a split, at any depth, from the proved marker itself.

A sheet is made of the records from the line down to the split, and of one case more: the pair in question, closed by a
crossing whose two centres are the same point. Marking gets to that case and says 15 where its pair is the next standing
one, 14 where it is not (01, Each operation and its refusals: 14 comes before 15). At the split points no edge is left
open but those of K and the two of the pair. So no other pair stands before it; and where it stands, none before those
on the way, since a split point of the way has its two edges in K then, and the pair gives it no third. A pair that
gives it one may get 14 further up, and does not stand.
"""

from array import array

from revosti import OPEN, STRUCK, Refusal, place

from .edges import edge
from .lengths import Lengths
from .parts import CROSSING, LINE, SPLIT, Record


def standing(lengths, marks, way):
    """The pairs that stand at the split of the last of some records, the first of them a line, each of the others a
    case of the one before. None where marking does not get there. The marks are a packed set with nothing pending."""
    lengths = Lengths(lengths.n, *(array("I", table) for table in lengths.tables))  # lent as they are, many times
    k, c = edges_of(way), way[-1].c
    narrow = narrowed(lengths.n, marks, {record.c for record in way}, k)
    try:
        likely = candidates(lengths, marks, k, c)
    except Refusal:
        return None
    last = len(way) + 1
    if probe(lengths, narrow, way, 1, 2)[1] != last:
        return None
    return [pair for pair in likely if probe(lengths, opened(lengths.n, narrow, c, pair), way, *pair) == (15, last)]


def edges_of(way):
    """K at the split of the last record."""
    inner = [edge(out.c, end) for out, inside in zip(way, way[1:]) for end in (inside.a, inside.b) if out.c != end]
    return {edge(way[0].a, way[0].b), *inner}


def candidates(lengths, marks, k, c):
    """The pairs at c that stand under each edge of K by itself: every pair that stands under K is one of them."""
    lists = [lengths.pairs(marks, a, b, c) for a, b in k]
    common = set(lists[0]).intersection(*lists[1:])
    return [pair for pair in lists[0] if pair in common]


def narrowed(n, marks, splits, k):
    """The marks with no edge open at some points but those of K."""
    narrow = bytearray(marks)
    for c in splits:
        for x in range(1, n + 1):
            if x != c and edge(c, x) not in k:
                put(n, narrow, c, x, STRUCK)
    return narrow


def opened(n, marks, c, pair):
    """The marks with the two edges of a pair open. They are open in the set, or the pair would not be listed."""
    wider = bytearray(marks)
    for x in pair:
        put(n, wider, c, x, OPEN)
    return wider


def put(n, marks, a, b, mark):
    """Sets the mark of an edge in a packed set."""
    byte, rank = divmod(place(n, a, b), 4)
    marks[byte] = marks[byte] & ~(3 << 2 * rank) | mark << 2 * rank


def probe(lengths, marks, way, a, b):
    """The refusal number and the record that marking answers for a case with a pair where the way ends. A crossing with
    one point as both centres never settles a case."""
    sheet = [Record(SPLIT if above else LINE, record.a, record.b, 0, 0, record.c, above + 2, 0) for above, record in enumerate(way)]
    try:
        lengths.mark(marks, [*sheet, Record(CROSSING, a, b, 1, 2, 3, 3, 0)])
    except Refusal as refusal:
        return refusal.number, refusal.record
    raise AssertionError("a crossing with equal centres settles a case")
