"""What a sheet lacks, where it is refused: a sentence or two, or none where file and library do not settle it. Nothing
here is a guess.

The pairs that are due come from the proved marker (`standing`), what a crossing saves from the library; the path that
K has where a new order is refused is followed here (`segment`).
"""

from typing import NamedTuple

from revosti import LEAST_POINTS, MOST_POINTS, Refusal, crossing_saving

from .edges import RULES, degree, edge, ends
from .nest import holds_chain, holds_split, kinds_under, nest
from .parts import (CROSSING, LINE, MAX_COORDINATE, MAX_FILE, MAX_RECORDS, POINTS_OF, RECORD, STRETCH, STRETCH_POINT, ZERO_IN, Beside,
                    join)
from .phrases import say
from .segment import measured_path, no_segment, not_shorter, other_points, segment_of
from .standing import edges_of, standing
from .words import counted, either

MOST_DUE = 12  # pairs that a sentence names


class Detail(NamedTuple):
    """A sentence about a fault, or None, and the pairs that are due, where they are known."""

    words: str | None = None
    due: list | None = None


def detail(parts, verdict):
    """What is known about a refusal."""
    if verdict.record == 0:
        return Detail(file_words(parts, verdict.refusal))
    if not 1 <= verdict.record <= len(parts.records):
        return Detail()
    sight = Sight(parts.records, verdict.lengths, verdict.closed(), verdict.record)
    if verdict.refusal == 14:
        return due_pairs(sight)
    find = {8: above_count, 9: not_rising, 10: wrong_shape, 11: wrong_points, 12: struck_before, 13: open_splits,
            15: broken_conditions, 16: best_saving, 23: no_stretch, 24: no_shorter_order}.get(verdict.refusal)
    return Detail(find(sight) if find else None)


def file_words(parts, refusal):
    """A sentence about a fault outside the records, or None."""
    find = {1: wrong_count, 3: wrong_rule, 4: wrong_coordinate, 7: wrong_size}.get(refusal)
    return find(parts) if find else None


def wrong_count(parts):
    """Refusal 1."""
    if parts.n is None or LEAST_POINTS <= parts.n <= MOST_POINTS:
        return None
    return say("here_n", n=parts.n)


def wrong_rule(parts):
    """Refusal 3."""
    return say("here_rule", rule=parts.rule) if parts.rule not in (None, *RULES) else None


def wrong_coordinate(parts):
    """Refusal 4, the first such point. In a TSPLIB text it is told by its line elsewhere."""
    for number, (x, y) in enumerate([] if isinstance(parts, Beside) else parts.points, 1):
        if max(x, y) > MAX_COORDINATE:
            return say("here_point", number=number, x=x, y=y)
    return None


def wrong_size(parts):
    """Refusal 7."""
    count, left = len(parts.records), len(parts.tail)
    if not isinstance(parts, Beside):
        size = len(join(parts))
        if parts.rule is None:
            return say("no_header", bytes=counted(size, "byte"))
        if parts.cut:
            return say("ends_inside", count=len(parts.points), points=counted(parts.n, "point"), bytes=counted(left, "byte"))
        if size > MAX_FILE:
            return say("file_has", bytes=counted(size, "byte"))
    if left:
        return say("bytes_follow", bytes=counted(left, "byte"), follow="follows" if left == 1 else "follow", size=RECORD.size)
    if count == 0:
        return say("no_records")
    return say("sheet_has", records=counted(count, "record")) if count > MAX_RECORDS else None


class Sight:
    """A record of a sheet among the others and with its place. The place is None if the nesting does not reach the
    record."""

    def __init__(self, records, lengths, marks, number):
        self.records, self.lengths, self.marks, self.number = records, lengths, marks, number
        self.n, self.record = lengths.n, records[number - 1]
        self.places = nest(records)
        self.place = self.places.get(number)

    def get(self, number):
        """The record with a number."""
        return self.records[number - 1]

    def owners(self, number):
        """The records whose chains a record lies in, outermost first."""
        found = []
        while self.places[number].owner:
            number = self.places[number].owner
            found.insert(0, number)
        return found

    def siblings(self, number):
        """The records before a record in its chain, first to last."""
        found = []
        while self.places[number].before:
            number = self.places[number].before
            found.insert(0, number)
        return found

    def chain(self, owner):
        """The records of the chain of a split or a new order, first to last."""
        return [number for number, place in self.places.items() if place.owner == owner]

    def named(self, owner):
        """The points that the chain of a new order names, or None if the chain is not in order."""
        chain = self.chain(owner)
        records = [self.get(k) for k in chain]
        indexes = [self.get(owner).d, *(record.next for record in records)]
        shaped = all(self.places[k].shaped for k in chain) and indexes == [*chain, 0]
        sound = shaped and all(self.sound(record) and not unwanted(record) for record in records)
        return [record.a for record in records] if sound else None

    def way(self, number):
        """The records from the line to a record, or None if one of them is not in order."""
        way = [self.get(k) for k in self.owners(number) + [number]]
        shaped = all(self.places[k].shaped for k in self.owners(number) + [number])
        return way if shaped and all(self.sound(r) for r in way) else None

    def edges(self, number):
        """K once a record's own edge or pair is in it, or None if the way to the record is not in order."""
        way = self.way(number)
        return edges_of(way) if way else None

    def sound(self, record):
        """Whether a record passes 01's test 11."""
        return record.a != record.b and all(1 <= getattr(record, name) <= self.n for name in POINTS_OF[record.kind])

    def standing(self, owner):
        """The pairs that stand at the split of a record, or None."""
        way = self.way(owner)
        return standing(self.lengths, self.marks, way) if way else None


def above_count(sight):
    """Refusal 8: the index above the count, the first in the order followed."""
    record, count = sight.record, len(sight.records)
    records = counted(count, "record")
    if holds_chain(record) and record.d > count:
        return say("first_above", index=record.d, records=records)
    return say("next_above", index=record.next, records=records) if record.next > count else None


def not_rising(sight):
    """Refusal 9: a first index up to its own record, or else the next index."""
    record = sight.record
    if holds_chain(record) and 0 < record.d <= sight.number:
        return say("first_index", index=record.d)
    return say("next_index", index=record.next) if record.next else None


def wrong_shape(sight):
    """Refusal 10."""
    place, record = sight.place, sight.record
    if place is None:
        return None
    if not place.shaped:
        wanted = either(map(str, kinds_under(sight.get(place.owner) if place.owner else None)))
        return say("wrong_kind", kind=record.kind, wanted=wanted)
    odd = [say("field_is", name=name, value=value) for name, value in unwanted(record)]
    return say("here", facts=" and ".join(odd)) if odd else None


def unwanted(record):
    """The fields of a record that are to be 0 and are not, each with its name."""
    return [(name, getattr(record, name)) for name in ZERO_IN[record.kind] if getattr(record, name)]


def wrong_points(sight):
    """Refusal 11."""
    record = sight.record
    fields = [(name, getattr(record, name)) for name in POINTS_OF.get(record.kind, "")]
    same = record.a == record.b and record.kind != STRETCH_POINT
    return outside(fields, sight.n) or (say("same_ends", point=record.a) if same else None)


def outside(fields, n):
    """Which of some points, each with its name, the board has not; None where it has all."""
    wrong = [say("field_is", name=name, value=point) for name, point in fields if not 1 <= point <= n]
    return say("outside", points=" and ".join(wrong), n=n) if wrong else None


def struck_before(sight):
    """Refusal 12: the line that strikes the same edge, or the set that has it struck."""
    wanted = edge(sight.record.a, sight.record.b)
    if sight.place is None or sight.place.depth:
        return None
    for number in sight.siblings(sight.number):
        line = sight.get(number)
        if line.kind == LINE and edge(line.a, line.b) == wanted:
            return say("struck_by", record=number)
    return say("struck_before")


def open_splits(sight):
    """Refusal 13: the splits that the case lies in."""
    if sight.place is None:
        return None
    return say("in_splits", records=", ".join(map(str, sight.owners(sight.number))))


def due_pairs(sight):
    """Refusal 14: the pairs that are due, if they can be told."""
    if sight.place is None or not sight.place.shaped or sight.record.kind == STRETCH_POINT:
        return Detail()
    record, rest = sight.record, []
    if sight.place.owner:
        stand = sight.standing(sight.place.owner)
        named = [sight.get(k)[1:3] for k in sight.siblings(sight.number)]
        if stand is None or named != stand[:len(named)]:
            return Detail()
        rest = stand[len(named):]
        if not rest:
            return Detail(say("all_named"), [])
        if rest[0] != (record.a, record.b):
            return Detail(due(rest), rest)
    return missing_pairs(sight, rest[1:])


def missing_pairs(sight, rest):
    """The pairs due after a record whose own pair is right: those of its empty chain, or the rest of the chain that it
    ends."""
    record = sight.record
    if holds_split(record) and record.d == 0:
        inner = sight.standing(sight.number)
        if inner is None:
            return Detail()
        if inner:
            return Detail(due(inner) + say("no_cases"), inner)
    if record.next == 0 and rest:
        return Detail(due(rest) + say("chain_ends"), rest)
    return Detail()


def due(pairs):
    """The pairs that are due, the first few of them by name."""
    first, *more = [f"{a}-{b}" for a, b in pairs]
    if not more:
        return say("one_due", pair=first)
    shown = ", ".join(more[:MOST_DUE - 1]) + (say("and_so_on") if len(pairs) > MOST_DUE else "")
    return say("more_due", pair=first, count=f"{len(more):,}", pairs=shown)


def broken_conditions(sight):
    """Refusal 15: the conditions that are broken."""
    k = crossed(sight)
    wrong = broken(sight.record, k) if k else []
    return say("here", facts="; ".join(wrong)) if wrong else None


def best_saving(sight):
    """Refusal 16: what the best labelling saves, over one table."""
    saving = saving_of(sight)
    return None if saving is None or saving > 0 else say("best_saves", saving=saving)


def saving_of(sight):
    """What a crossing saves, or None: it breaks a condition, or there are two tables, over which no saving is told."""
    k = crossed(sight)
    if not k or broken(sight.record, k) or sight.lengths.high is not None:
        return None
    _, _, _, u, v, c, d, _ = sight.record
    try:
        return crossing_saving(sight.n, sight.lengths.table, u, v, c, d, *ends(k, c), *ends(k, d))
    except Refusal:
        return None


def crossed(sight):
    """K at a crossing, its own pair in it, or None."""
    return edges_at(sight, CROSSING)


def edges_at(sight, kind):
    """K at a record of a kind, its own pair in it, or None."""
    if sight.place is None or sight.record.kind != kind or not sight.place.shaped:
        return None
    return sight.edges(sight.number)


def broken(record, k):
    """The conditions of a crossing that are broken."""
    _, _, _, u, v, c, d, _ = record
    tests = [
        (edge(u, v) not in k, say("not_in_k", edge=f"{u}-{v}")),
        (c == d, say("same_centres")),
        *((centre in (u, v), say("centre_end", centre=centre, edge=f"{u}-{v}")) for centre in (c, d)),
        *((degree(k, centre) != 2, say("centre_edges", centre=centre, edges=counted(degree(k, centre), "edge"))) for centre in (c, d)),
        (edge(c, d) in k, say("centres_joined", edge=f"{c}-{d}")),
    ]
    return list(dict.fromkeys(text for wrong, text in tests if wrong))


def no_stretch(sight):
    """Refusal 23: why K has no such stretch, or what its points and the chain's differ by."""
    k, (u, v) = edges_at(sight, STRETCH), sight.record[3:5]
    if not k:
        return None
    points, named = segment_of(k, u, v), sight.named(sight.number)
    if points is None:
        return no_segment(k, u, v)
    return None if named is None else other_points(points, named)


def no_shorter_order(sight):
    """Refusal 24: both lengths."""
    paths = reordered(sight)
    return not_shorter(*paths, sight.lengths.high is not None) if all(paths) else None


def reordered(sight):
    """The stretch of a case and its new order, each with its length; None for one that there is not."""
    k, (u, v) = edges_at(sight, STRETCH), sight.record[3:5]
    points, named = k and segment_of(k, u, v), sight.named(sight.number)
    return (measured_path(sight.lengths, points, put_in=False) if points else None,
            measured_path(sight.lengths, [u, *named, v], put_in=True) if k and named is not None else None)
