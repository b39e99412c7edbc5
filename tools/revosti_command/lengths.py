"""The lengths that a call is over: the table of a board, or two tables, low and high (01, Lengths known within limits).

The operations are those of the module `revosti`; each is that of one table or that of two.
"""

from typing import NamedTuple

from revosti import (LEAST_POINTS, MOST_POINTS, Refusal, ask_sheet, list_between, list_pairs, mark_between, mark_sheet, measure,
                     read_tsplib)

from .parts import MAX_FILE, Beside, join


class Lengths(NamedTuple):
    """The number of points, a table, and the high table where the first is the low one."""

    n: int
    table: object
    high: object = None

    @property
    def tables(self):
        """The tables, one after the other."""
        return (self.table,) if self.high is None else (self.table, self.high)

    def mark(self, marks, sheet):
        """*Mark a sheet* or *mark between*: the lines accepted."""
        return (mark_sheet if self.high is None else mark_between)(self.n, *self.tables, marks, sheet)

    def ask(self, marks, sheet):
        """*Ask a sheet*: the lines accepted."""
        return ask_sheet(self.n, self.table, marks, sheet)

    def pairs(self, marks, a, b, c):
        """*List pairs* or *list between*."""
        return (list_pairs if self.high is None else list_between)(self.n, *self.tables, marks, a, b, c)


def measured(parts):
    """The table of a board: that of its TSPLIB text, or that of a sheet's coordinates. A file that ends inside the
    board, or is too long, gets 7, as from `mark`, unless n is refused."""
    if isinstance(parts, Beside):
        return read_tsplib(parts.text).table
    known = parts.n is not None and not LEAST_POINTS <= parts.n <= MOST_POINTS
    if parts.n is None or not known and (parts.cut or len(join(parts)) > MAX_FILE):
        raise Refusal(7)
    return measure(parts.n, parts.rule, parts.points)


def sheet_of(parts):
    """The records as the library takes them: a broken last record gets 7, and so does no record."""
    return [] if parts.tail else parts.records
