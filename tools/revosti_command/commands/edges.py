"""revosti edges: the open edges for a solver."""

from revosti import STRUCK

from ..edges import edges
from ..marks import marks_of
from ..options import add_board, add_out, add_set, lengths_of, load_board, marks_for, say

NAME, GROUP = "edges", "Boards"
HELP = "the open edges as an edge file, for a tour solver"
ABOUT = """Writes the edges that are not struck as an edge file, as Concorde and LKH read it: the numbers of points and
of edges, then a line an edge with its two points, numbered from 0, and its length. A pending edge is not struck yet,
and is among them."""
EXAMPLE = "revosti edges examples/square.tsp"


def add(command):
    """The options."""
    add_board(command)
    add_set(command)
    add_out(command)


def run(options):
    """Writes the edges."""
    lengths = lengths_of(load_board(options.file, options.form).parts, options.file)
    marks = marks_of(marks_for(options, lengths), lengths.n)
    rows = [f"{a - 1} {b - 1} {length}" for (a, b), length, mark in zip(edges(lengths.n), lengths.table, marks) if mark != STRUCK]
    say(options, "\n".join([f"{lengths.n} {len(rows)}", *rows]))
