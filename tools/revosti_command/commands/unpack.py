"""revosti unpack: the input of mark to a text."""

from ..files import name_of, read_file
from ..options import add_out, write
from ..parts import split
from ..tsplib import BadBoard, write_board
from ..words import Complaint
from ..write import unpack, unpack_beside

NAME, GROUP = "unpack", "Sheets"
HELP = "the input of mark to a sheet as text"
ABOUT = """Unpacks a sheet: the binary input of mark to the text form. Every file has one, and packing that gives the
same file."""
EXAMPLE = "revosti unpack examples/square.bin"


def add(command):
    """The options."""
    command.add_argument("file", nargs="?", metavar="FILE", help="the binary file; standard input if none is named")
    which = command.add_mutually_exclusive_group()
    which.add_argument("-n", "--numbers", action="store_true", help="add each record's number as a comment")
    which.add_argument("--tsplib", action="store_true", help="the board alone, as a TSPLIB text")
    which.add_argument("--records", action="store_true", help="the records alone, as --board takes them")
    add_out(command)


def run(options):
    """Unpacks the sheet."""
    parts = split(read_file(options.file))
    if options.tsplib or options.records:
        try:
            board = write_board(parts)  # a file that has none is refused for its records, too
        except BadBoard as error:
            raise Complaint(f"{name_of(options.file)}{error}") from error
        text = board if options.tsplib else unpack_beside(parts)
    else:
        text = unpack(parts, options.numbers)
    write(options, text.encode("ascii"))
