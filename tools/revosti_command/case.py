"""One record of a sheet, as the marker sees it: K, its split point, its crossing or its new order, the pairs that stand
there, and which have a case."""

from typing import NamedTuple

from revosti import PENDING, withdraw

from .fault import Sight, reordered
from .marks import marks_of
from .parts import CROSSING, STRETCH, STRETCH_POINT
from .phrases import say
from .segment import Path
from .verdict import lines_before
from .words import Complaint, counted


class Case(NamedTuple):
    """K with the record's own edge or pair, its kind, its split point, its two centres or the two ends of its stretch,
    and the marks that the record's line is judged over; the edge that it crosses; the pairs that stand at the split, and
    those of them that no case names; the stretch, and its new order."""

    k: list
    kind: int
    points: list
    marks: bytes
    crossed: tuple | None = None
    pairs: list = []
    due: list = []
    stretch: Path | None = None
    order: Path | None = None


def case_of(parts, lengths, marks, number):
    """The case of a record of a sheet over a set. A pending edge counts as open, as it does in the pair list."""
    if not 1 <= number <= len(parts.records):
        raise Complaint(f"--record: expected a record of the sheet, which has {counted(len(parts.records), 'record')}, found {number}")
    sight = Sight(parts.records, lengths, marks, number)
    way = sight.way(number) if sight.place else None
    if way is None:
        raise Complaint(f"--record: {say('not_reached', record=number)}")
    record = sight.record
    if record.kind == STRETCH_POINT:
        raise Complaint(f"--record: record {number} is a point of the order of record {sight.place.owner}, and no case")
    line = (sight.owners(number) or [number])[0]
    sight.marks = lines_before(lengths, settled(marks, lengths.n), parts, line).left
    k = sorted(sight.edges(number))
    if record.kind == CROSSING:
        return Case(k, record.kind, [record.c, record.d], sight.marks, crossed=(record.u, record.v))
    if record.kind == STRETCH:
        stretch, order = reordered(sight)
        return Case(k, record.kind, [record.u, record.v], sight.marks, stretch=stretch, order=order)
    return split_case(sight, k)


def split_case(sight, k):
    """The case of a record that holds a split."""
    pairs = sight.standing(sight.number)
    if pairs is None:
        raise Complaint(f"--record: marking does not get to record {sight.number}")
    named = {sight.get(number)[1:3] for number in sight.chain(sight.number)}
    return Case(k, sight.record.kind, [sight.record.c], sight.marks, pairs=pairs, due=[pair for pair in pairs if pair not in named])


def settled(marks, n):
    """The marks with what is pending open."""
    marks = bytearray(marks)
    if PENDING in marks_of(marks, n):
        withdraw(n, marks)
    return marks
