"""A sheet judged over a set: what the library answers, and what of the set it is needed to tell why."""

from typing import NamedTuple

from revosti import OPEN, PENDING, STRUCK, Refusal, confirm, fresh_marks

from .edges import edges
from .lengths import Lengths, sheet_of
from .marks import marks_of
from .nest import nest


class Verdict(NamedTuple):
    """The refusal number or 0, its record or 0 and the lines accepted; the lengths, the marks found and the marks left.
    A board that is refused has no lengths and no marks."""

    refusal: int
    record: int = 0
    lines: int = 0
    lengths: Lengths | None = None
    found: bytes = b""
    left: bytes = b""

    @property
    def slip(self):
        """The answer of the library as one number (01, Slips)."""
        return self.refusal | self.record << 8 | self.lines << 24

    def changed(self):
        """The edges that accepted lines struck or made pending, in edge order."""
        n = self.lengths.n
        pairs = zip(edges(n), marks_of(self.found, n), marks_of(self.left, n))
        return [e for e, old, new in pairs if old == OPEN != new]

    def closed(self):
        """The marks that the line at fault was judged over, with nothing pending: within an asked sheet pending counts
        as struck."""
        return closed(self.left, self.lengths.n)


def closed(marks, n):
    """A copy of the marks with what is pending struck."""
    marks = bytearray(marks)
    if PENDING in marks_of(marks, n):
        confirm(n, marks)
    return marks


def judge(operation, lengths, marks, parts):
    """The verdict on a sheet over a set, by `Lengths.mark` or `Lengths.ask`. The set, a bytearray, is changed."""
    found = bytes(marks)
    try:
        lines = operation(lengths, marks, sheet_of(parts))
        return Verdict(0, 0, lines, lengths, found, bytes(marks))
    except Refusal as refusal:
        return Verdict(refusal.number, refusal.record, refusal.lines, lengths, found, bytes(marks))


def dry(lengths, marks, parts):
    """The verdict of marking a sheet over a set, or over fresh marks where it is None. The set stays as it is."""
    return judge(Lengths.mark, lengths, fresh_marks(lengths.n) if marks is None else bytearray(marks), parts)


def lines_before(lengths, marks, parts, number):
    """The verdict of marking the lines before a line of a sheet, on a copy of the set; what is pending counts as struck
    there. A record that is no line of the chain has none before it."""
    place = nest(parts.records).get(number)
    last = place.before if place and place.depth == 0 else 0
    if not last:
        return Verdict(0, lengths=lengths, found=bytes(marks), left=bytes(marks))
    records = list(parts.records[:number - 1])
    records[last - 1] = records[last - 1]._replace(next=0)
    return judge(Lengths.mark, lengths, closed(marks, lengths.n), parts._replace(records=records, tail=b""))


def counted_marks(marks, n):
    """How many edges have each mark, by name."""
    found = marks_of(marks, n)
    return {"struck": found.count(STRUCK), "pending": found.count(PENDING), "open": found.count(OPEN)}
