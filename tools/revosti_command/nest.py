"""Which record lies inside which, for any records at all.

The walk follows indexes as `mark` does (01, The sheet), without judging the
arguments, and goes on where `mark` stops: an index that `mark` refuses counts
as the end of its chain. The numbers of the records entered rise, so the walk
ends, and records listed by number are also in depth-first order.
"""

from typing import NamedTuple

from .parts import CROSSING, LINE, SPLIT, STRETCH, STRETCH_POINT

MAX_DEPTH = 20  # deeper cases are left out of the walk; six splits are allowed


class Place(NamedTuple):
    """Where an entered record lies: its depth (0 for a line), the record that
    holds its chain, the record before it there; 0 for none. `shaped` tells
    whether its kind fits its chain."""

    depth: int
    owner: int
    before: int
    shaped: bool


def nest(records):
    """The place of each record entered, by number from 1, in rising order."""
    places = {}
    entering = (1, 0, 0) if records else None
    while entering:
        number, owner, before = entering
        depth = places[owner].depth + 1 if owner else 0
        shaped = fits(records[number - 1], records[owner - 1] if owner else None)
        places[number] = Place(depth, owner, before, shaped)
        entering = inward(records, places, number) or onward(records, places, number)
    return places


def fits(record, owner):
    """Whether a record's kind is one for the chain of its owner, a record or
    None."""
    return record.kind in kinds_under(owner)


def kinds_under(owner):
    """The kinds of a chain: of lines where it has no owner, of the points of
    a new order, or of cases."""
    if owner is None:
        return LINE,
    return (STRETCH_POINT,) if owner.kind == STRETCH else (SPLIT, CROSSING, STRETCH)


def holds_split(record):
    """Whether the record's kind carries a split."""
    return record.kind in (LINE, SPLIT)


def holds_chain(record):
    """Whether the record's kind leads to a chain, of cases or of points."""
    return holds_split(record) or record.kind == STRETCH


def usable(index, highest, count):
    """Whether an index passes 01's tests 8 and 9 and is not the end."""
    return highest < index <= count


def inward(records, places, number):
    """The first case or point of the record just entered, if the walk can
    enter it."""
    record, place = records[number - 1], places[number]
    if not (place.shaped and holds_chain(record) and place.depth < MAX_DEPTH):
        return None
    if not usable(record.d, number, len(records)):
        return None
    return record.d, number, 0


def onward(records, places, highest):
    """The next record after a finished one: in its chain, or further out."""
    number = highest
    while number:
        place, index = places[number], records[number - 1].next
        if usable(index, highest, len(records)):
            return index, place.owner, number
        number = place.owner
    return None


def links(places):
    """The usual indexes: each owner's first case or point and each record's next."""
    first = {p.owner: k for k, p in places.items() if p.owner and not p.before}
    after = {p.before: k for k, p in places.items() if p.before}
    return first, after
