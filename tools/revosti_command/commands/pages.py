"""revosti pages: the wall list."""

from ..options import add_board, add_out, add_set, lengths_of, load_board, marks_for, write
from ..pages import wall_list

NAME, GROUP = "pages", "Boards"
HELP = "the wall list of a board: a line an edge, 60 lines a page"
ABOUT = "Prints the wall list of a board: each edge with its length and its mark, fresh or of a set."
EXAMPLE = "revosti pages examples/square.tsp"


def add(command):
    """The options."""
    add_board(command)
    add_set(command)
    add_out(command)


def run(options):
    """Prints the list."""
    lengths = lengths_of(load_board(options.file, options.form).parts, options.file)
    write(options, wall_list(lengths, marks_for(options, lengths)))
