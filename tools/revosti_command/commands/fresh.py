"""revosti fresh: a new set."""

from ..archive import same_file, start
from ..explain import counts
from ..options import add_board, add_high, add_out, add_set, guard, lengths_of, load_board, say
from ..words import Complaint

NAME, GROUP = "fresh", "Sets of marks"
HELP = "start a set: fresh marks of a board, all open"
ABOUT = """Writes fresh marks of a board, all open, to a new file, and beside it MARKS.fingerprint, which tells the
board that the set is of. An existing file is left alone unless --force is given."""
EXAMPLE = "revosti fresh examples/square.tsp --marks square.marks"


def add(command):
    """The options."""
    add_board(command, nargs="?")
    add_set(command, "the file of the new packed set", required=True)
    add_high(command)
    command.add_argument("--force", action="store_true", help="replace a file of this name")
    add_out(command)


def run(options):
    """Starts the set."""
    lengths = lengths_of(load_board(options.file, options.form).parts, options.file, options.high, options.form)
    if same_file(options.file, options.marks) or same_file(options.high, options.marks):
        raise Complaint(f"{options.marks}: this is the board itself")
    guard(options)
    marks = start(lengths, options.marks, options.force)
    options.changed = options.marks
    say(options, counts(marks, lengths.n))
