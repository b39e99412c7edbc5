"""revosti read-pages: the set of a wall list."""

import argparse

from revosti import LEAST_POINTS, MOST_POINTS

from ..archive import keep
from ..files import STANDARD, name_of, read_file
from ..fingerprint import fingerprint
from ..lengths import Lengths
from ..options import add_high, add_out, lengths_of, load_board, write
from ..pages import BadPages, other_length, read_list
from ..words import Complaint

NAME, GROUP = "read-pages", "Boards"
HELP = "a wall list to a packed set"
ABOUT = """Reads a wall list and writes its marks as a packed set. With -o a fingerprint of the lengths in the list is
written beside the set; an existing file is left alone unless --force is given. --board compares the lengths of the list
with those of a board."""
EXAMPLE = """revosti pages examples/square.tsp -o wall.txt
  revosti read-pages wall.txt --board examples/square.tsp -o square.marks"""


def board_points(text):
    """How many points a board has, on the command line."""
    if not (text.isascii() and text.isdigit() and len(text) <= 3 and LEAST_POINTS <= int(text) <= MOST_POINTS):
        raise argparse.ArgumentTypeError(f'expected {LEAST_POINTS} to {MOST_POINTS} points, found "{text}"')
    return int(text)


def add(command):
    """The options."""
    command.add_argument("file", nargs="?", metavar="FILE", help="the list; standard input if none is named")
    command.add_argument("--points", metavar="N", type=board_points, help="how many points the list is of; its size tells it otherwise")
    command.add_argument("--board", metavar="BOARD", help="a sheet or FILE.tsp: its lengths are those of the list")
    add_high(command)
    command.add_argument("--force", action="store_true", help="replace a file of the name that -o gives")
    add_out(command)


def run(options):
    """Reads the list and writes the set."""
    try:
        n, table, marks = read_list(read_file(options.file), options.points)
    except BadPages as error:
        raise Complaint(f"{name_of(options.file)}: {error}") from error
    if options.board is not None:
        board = lengths_of(load_board(options.board).parts, options.board)
        wrong = other_length(table, board.table, options.board)
        if wrong:
            raise Complaint(f"{name_of(options.file)}: {wrong}")
    if options.out in STANDARD:
        write(options, bytes(marks))
        return
    high = None if options.high is None else lengths_of(load_board(options.high).parts, f"--high {options.high}").table
    keep(options.out, bytes(marks), fingerprint(Lengths(n, table, high)), options.force)
