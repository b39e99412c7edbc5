"""Savings in words: what a rule takes out, what it puts in, and whether it shuts a case out (01, Savings).

The saving is what the module `revosti` answers; the sums that show it are added up here.
"""

from collections.abc import Callable
from itertools import product
from typing import NamedTuple

from revosti import crossing_saving, exchange_saving, move_saving, place

from .edges import name
from .phrases import say


class Rule(NamedTuple):
    """A rule that saves: the points that it names, the call that answers its saving, and functions of these points for
    the steps that show it, for its name in words, and for what the saving says."""

    points: str
    call: Callable
    steps: Callable
    name: Callable
    meaning: Callable


def tell(lengths, which, points):
    """The saving of a rule on a board, as text."""
    rule = SAVINGS[which]
    saving = rule.call(lengths.n, lengths.table, *points)
    sums = Sums(lengths.n, lengths.table)
    shown = [sums.step(*step) for step in rule.steps(sums, *points)]
    last = [say("smaller_counts")] if len(shown) > 1 else []
    side = say("above_0" if saving > 0 else "not_above_0", meaning=rule.meaning(saving > 0, *points))
    return "\n".join([say("saves", what=rule.name(*points), saving=saving), *shown, *last, side])


class Sums:
    """The lengths of a table, added up."""

    def __init__(self, n, table):
        self.n, self.table = n, table

    def length(self, a, b):
        """l(ab); a point is 0 from itself."""
        return 0 if a == b else self.table[place(self.n, a, b)]

    def total(self, edges):
        """The sum of some lengths."""
        return sum(self.length(*e) for e in edges)

    def saved(self, out, put):
        """What is taken out less what is put in."""
        return self.total(out) - self.total(put)

    def words(self, edges):
        """Edges and the sum of their lengths."""
        *names, last = [name(*e) for e in edges]
        return say("sum", edges=f"{', '.join(names)} and {last}", lengths=" + ".join(str(self.length(*e)) for e in edges),
            total=self.total(edges))

    def step(self, out, put):
        """One way to take out and put in."""
        return say("step", out=self.words(out), put=self.words(put), taken=self.total(out), given=self.total(put),
            saved=self.saved(out, put))


def exchange_steps(_, p, q, x, y):
    """The two exchanges: edges taken out, edges put in."""
    out = [(p, q), (x, y)]
    return (out, [(p, x), (q, y)]), (out, [(p, y), (q, x)])


def exchange_name(p, q, x, y):
    """The exchange in words."""
    return say("exchange", pq=name(p, q), xy=name(x, y))


def exchange_meaning(above, *_):
    """What the saving says of the two edges."""
    return say("not_compatible" if above else "compatible")


def move_steps(_, c, x, y, u, v):
    """The one move."""
    return ([(x, c), (y, c), (u, v)], [(x, y), (u, c), (v, c)]),


def move_name(c, x, y, u, v):
    """The move in words."""
    return say("move", c=c, x=x, y=y, u=u, v=v)


def move_meaning(above, c, x, y, u, v):
    """What the saving says of a pair."""
    if x == y or c in (u, v):
        return say("move_asks", c=c)
    return say("move_shuts" if above else "move_shuts_not", edges=f"{name(x, c)}, {name(y, c)} and {name(u, v)}")


def labelling(p, q, r, s, x, y, z, w):
    """The two moves of one labelling."""
    return ([(p, q), (r, x), (s, w)], [(r, s), (p, x), (q, w)]), ([(p, q), (r, y), (s, z)], [(r, s), (p, z), (q, y)])


def crossing_steps(sums, p, q, r, s, x, y, z, w):
    """The two moves of the best labelling, the first of the best."""
    ways = [labelling(p, q, r, s, *ends, *others) for ends, others in product(((x, y), (y, x)), ((z, w), (w, z)))]
    return max(ways, key=lambda moves: min(sums.saved(*move) for move in moves))


def crossing_name(p, q, r, s, *_):
    """The crossing in words."""
    return say("crossing", pq=name(p, q), r=r, s=s)


def crossing_meaning(above, *_):
    """What the saving says of the case."""
    return say("crossing_settles" if above else "crossing_refused")


SAVINGS = {
    "exchange": Rule("P Q X Y", exchange_saving, exchange_steps, exchange_name, exchange_meaning),
    "move": Rule("C X Y U V", move_saving, move_steps, move_name, move_meaning),
    "crossing": Rule("P Q R S X Y Z W", crossing_saving, crossing_steps, crossing_name, crossing_meaning),
}
