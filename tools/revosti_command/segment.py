"""The segment of K that a case puts in another order (02, Paper 10: a stretch), and what its points lack, in words.

Whether a new order settles its case is for the marker to say; here is told why it does not.
"""

from collections import Counter
from typing import NamedTuple

from .edges import degree, ends, name, path_name
from .phrases import say
from .saving import Sums
from .words import are, listed

MOST_POINTS = 12  # points that a sentence names


class Path(NamedTuple):
    """Points in their order, ends included, and the length from the first to the last."""

    points: list
    length: int

    @property
    def legs(self):
        """Its edges, one after the other."""
        return list(zip(self.points, self.points[1:]))


def ways(k, u, v):
    """The paths of K from u to v, no point twice."""
    found, begun = [], [[u]]
    while begun:
        path = begun.pop()
        if path[-1] == v:
            found.append(path)
        else:
            begun += [[*path, w] for w in ends(k, path[-1]) if w not in path]
    return found


def segment_of(k, u, v):
    """The points of the segment of K from u to v, ends included: the one path, with an inner point. None where there is
    no such path."""
    found = ways(k, u, v)
    return found[0] if len(found) == 1 and len(found[0]) > 2 else None


def measured_path(lengths, points, put_in):
    """A path with its length: over two tables by the high lengths where it is put in, by the low ones where it is taken
    out."""
    table = lengths.tables[-1] if put_in else lengths.table
    return Path(points, Sums(lengths.n, table).total(zip(points, points[1:])))


def no_segment(k, u, v):
    """Why K has no segment from u to v."""
    off = [p for p in dict.fromkeys((u, v)) if not degree(k, p)]
    found = ways(k, u, v)
    if u == v:
        return say("same_stretch_ends", point=u)
    if off:
        return say("off_k", points=f"{'Points' if len(off) > 1 else 'Point'} {listed(map(str, off))}", are=are(len(off)))
    if len(found) > 1:
        return say("closed_tour", u=u, v=v, paths=listed(map(path_name, sorted(found))))
    if found:
        return say("edge_of_k", edge=name(u, v))
    return say("no_path", u=u, v=v, one=path_name(line_at(k, u)), other=path_name(line_at(k, v)))


def line_at(k, point):
    """The whole path of K that a point lies on, from its lower end."""
    reached = {p for e in k for p in e if ways(k, point, p)}
    first, *_ = sorted(p for p in reached if degree(k, p) == 1) or [point]
    return max((way for p in reached for way in ways(k, first, p)), key=len)


def other_points(points, named):
    """What a chain lacks that is to name the inner points of a segment, each once; None where it lacks nothing."""
    inner, times = points[1:-1], Counter(named)
    surplus = sorted(set(named) - set(inner))
    faults = [("order_lacks", [p for p in inner if not times[p]]), ("order_twice", sorted(p for p in times if times[p] > 1)),
              ("order_other", surplus)]
    told = [say(phrase, points=some(found), are=are(len(found))) for phrase, found in faults if found]
    return " ".join([say("stretch_is", path=path_name(points)), *told]) if told else None


def some(points):
    """Points by number, the first few of them."""
    shown = [str(p) for p in points[:MOST_POINTS]]
    return ", ".join(shown) + say("and_so_on") if len(points) > MOST_POINTS else listed(shown)


def not_shorter(old, new, two_tables):
    """By how much a new order is not shorter; None where it is."""
    if new.length < old.length:
        return None
    low, high = (" by the low lengths", " by the high ones") if two_tables else ("", "")
    by = new.length - old.length
    return say("not_shorter", old=path_name(old.points), long=f"{old.length:,} long{low}", order=path_name(new.points),
               length=f"{new.length:,}{high}", more=say("longer_by", by=f"{by:,}") if by else say("as_long"))
