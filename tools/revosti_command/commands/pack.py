"""revosti pack: a text to the input of mark."""

from ..files import read_file
from ..options import TSPLIB, add_out, board_of, text_sheet, write
from ..parts import join
from ..tsplib import read_board

NAME, GROUP = "pack", "Sheets"
HELP = "a sheet as text to the input of mark"
ABOUT = "Packs a sheet: the text form to the binary input of mark. The form is checked, not the argument."
EXAMPLE = "revosti pack --board examples/square.tsp examples/square.txt -o square.sheet"


def add(command):
    """The options."""
    command.add_argument("file", nargs="?", metavar="FILE", help="the text; standard input if none is named")
    command.add_argument("--board", metavar=f"FILE{TSPLIB}", help="a TSPLIB text with the board, by coordinates; the text has none then")
    add_out(command)


def run(options):
    """Packs the sheet."""
    board = None if options.board is None else board_of(options.board, read_board)
    write(options, join(text_sheet(options.file, read_file(options.file), board).parts))
