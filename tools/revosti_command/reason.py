"""One reason of a told line, as a picture shows it: K, the pair's edges, and what shuts the pair out or settles it."""

from itertools import combinations
from typing import NamedTuple

from .edges import edge, ends, name, path_name
from .labels import fitting
from .saving import Sums, exchange_steps, move_steps
from .words import counted, listed


class Sketch(NamedTuple):
    """K and the pair's edges; the edges at fault or taken out, and those put in; the split point, and the point that is
    crowded, moved or split at; the rows of the legend, class and words; the sentence."""

    k: list
    pair: list
    fault: list
    put: list
    split: int
    spot: int | None
    rows: list
    sentence: str

    @property
    def edges(self):
        """All edges of the picture that are more than marks."""
        return [*self.k, *self.pair, *self.fault, *self.put]


def sketch(telling, reason, lengths, record):
    """The picture of a reason of a told line."""
    k, pair = [edge(*telling.edge)], [edge(telling.split, end) for end in reason.pair]
    fault, put, spot, rows = WAYS.get(reason.kind, untold)(reason.points, sorted({*k, *pair}), lengths)
    head = [("k", f"record {record}: K is {name(*k[0])}"), ("pair", f"pair {name(*reason.pair)}"), ("ring", f"split at {telling.split}")]
    return Sketch(k, [e for e in pair if e not in k], fault, put, telling.split, spot, head + rows, reason.sentence)


def struck(points, *_):
    """An edge of the pair that is not open."""
    return [tuple(points)], [], None, [("fault", f"struck: {name(*points)}")]


def third(points, joined, _):
    """The edges at a point that has three."""
    point, = points
    crowd = [e for e in joined if point in e]
    return crowd, [], point, [("fault", row(f"at {point}", crowd)), ("spot", f"third edge at {point}")]


def loop(points, joined, _):
    """The edges of a short cycle."""
    return [e for e in combinations(points, 2) if e in joined], [], None, [("fault", f"loop {path_name(points)}")]


def exchange(points, _, lengths):
    """Two edges taken out, and those put in by the dearer of the two ways, whose saving is told."""
    sums = Sums(lengths.n, lengths.table)
    out, put = min(exchange_steps(sums, *points), key=lambda way: sums.saved(*way))
    return changed(out, put, None, [])


def move(points, joined, _):
    """A point taken out from between its neighbours and put in between the ends of an edge."""
    point, u, v = points
    (out, put), = move_steps(None, point, *ends(joined, point), u, v)
    return changed(out, put, point, [("spot", f"{point} moves")])


def further(points, *_):
    """A point at which the case is split further."""
    return [], [], points[0], [("spot", f"further split at {points[0]}")]


def untold(*_):
    """A crossing or a new order, which the case's own picture shows. At a first split neither is told."""
    return [], [], None, []


def changed(out, put, spot, rows):
    """Edges taken out and put in, and the rows for them."""
    put = [e for e in put if e[0] != e[1]]
    words = [("fault", row("out", out)), ("put", row("in", put))]
    return [edge(*e) for e in out], [edge(*e) for e in put], spot, words + rows


def row(words, edges):
    """A row of the legend with its edges by name, or their number where these do not fit."""
    return fitting(f"{words}: {listed(name(*e) for e in edges)}", f"{words}: {counted(len(edges), 'edge')}")


WAYS = {"struck": struck, "third": third, "loop": loop, "exchange": exchange, "move": move, "split": further}
