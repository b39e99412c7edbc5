"""revosti board: a board from real coordinates."""

import argparse
from fractions import Fraction

from ..files import name_of, note, read_file
from ..options import add_out, digits_of, is_wide, write
from ..reals import LONGEST, REAL, BadReals, read_reals
from ..tsplib import write_board
from ..words import Complaint

NAME, GROUP = "board", "Boards"
HELP = "a TSPLIB text with real coordinates to one with whole ones"
ABOUT = """Reads a TSPLIB text as others write it, with real coordinates such as 1.11630e+03, and writes one that every
command takes: coordinates are multiplied by --scale, moved up where one is below 0, and rounded to whole numbers. What
is done is told on standard error. --points takes the first so many points."""
EXAMPLE = "revosti board examples/square.tsp --scale 2.5 -o large.tsp"


def factor(text):
    """A scale on the command line."""
    if len(text) > LONGEST or not REAL.fullmatch(text) or Fraction(text) <= 0:
        raise argparse.ArgumentTypeError(f'expected a number above 0, found "{text}"')
    return Fraction(text)


def how_many(text):
    """A number of points on the command line."""
    return digits_of(text, "a number of points", 10**9)


def add(command):
    """The options."""
    command.add_argument("file", nargs="?", metavar="FILE", help="the TSPLIB text; standard input if none is named")
    command.add_argument("--scale", metavar="NUMBER", type=factor, default=Fraction(1), help="multiply coordinates by this number")
    command.add_argument("--points", metavar="N", type=how_many, help="the first so many points")
    add_out(command)


def run(options):
    """Writes the board, and tells what was done."""
    data = read_file(options.file)
    if is_wide(data):
        raise Complaint(f"{name_of(options.file)}: the text is UTF-16, two bytes a letter; save it as UTF-8")
    try:
        board = read_reals(data, options.scale, options.points)
    except BadReals as error:
        raise Complaint(f"{name_of(options.file)}{error}") from error
    write(options, write_board(board.parts).encode("ascii"))
    note(f"{name_of(options.file)}: {'; '.join(board.notes)}")
