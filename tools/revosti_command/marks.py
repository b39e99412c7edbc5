"""The marks of a set, one number an edge, and what is no set (01, Points, lengths, marks)."""

from revosti import LEAST_POINTS, MOST_POINTS, OPEN, PENDING, STRUCK, marks_size

from .edges import edge_count, edges
from .phrases import say
from .words import counted

NAMES = {STRUCK: "struck", PENDING: "pending", OPEN: "open"}


class BadMarks(Exception):
    """Bytes that are no set of marks (01, refusal 6)."""


def marks_of(data, n):
    """The marks of a packed set of n points that has its size."""
    return [byte >> rank & 3 for byte in data for rank in (0, 2, 4, 6)][:edge_count(n)]


def read_marks(data, n):
    """The marks of a packed set of n points."""
    count = edge_count(n)
    if len(data) != marks_size(n):
        hint = say("byte_set") if len(data) == count else ""
        raise BadMarks(say("set_size", points=counted(n, "point"), bytes=counted(marks_size(n), "byte"),
            found=counted(len(data), "byte"), hint=hint))
    marks = known(marks_of(data, n), n)
    unused = data[-1] >> 2 * (count % 4) if count % 4 else 0
    if unused:
        raise BadMarks(say("set_unused", bits=f"{unused:b}"))
    return marks


def known(marks, n):
    """The marks, where each of them is one."""
    for (a, b), mark in zip(edges(n), marks):
        if mark not in NAMES:
            raise BadMarks(say("set_mark", edge=f"{a}-{b}", mark=mark))
    return marks


def packed_points(data):
    """How many points a packed set is of. No two numbers of points have sets of one size."""
    return points_of(data, marks_size, "a packed set")


def byte_points(data):
    """How many points a byte set is of."""
    return points_of(data, edge_count, "a byte set")


def points_of(data, size, form):
    """The number of points whose set in this form has the size of the data."""
    for n in range(LEAST_POINTS, MOST_POINTS + 1):
        if size(n) == len(data):
            return n
    raise BadMarks(f"expected {form} of {LEAST_POINTS} to {MOST_POINTS} points, found {counted(len(data), 'byte')}, the size of none")


def show(n, marks):
    """The marks as text: the sizes, a line an edge, and how many have each mark."""
    lines = [f"points {n} edges {len(marks)}"]
    lines += [f"{NAMES[mark]} {a} {b}" for (a, b), mark in zip(edges(n), marks)]
    total = " ".join(f"{name} {marks.count(mark)}" for mark, name in NAMES.items())
    return "\n".join([*lines, f"total {total}", ""])


def marked(n, marks, mark):
    """The edges that have a mark, in edge order."""
    return [e for e, m in zip(edges(n), marks) if m == mark]
