"""revosti cut: which board is cut, of those that a set of limits serves."""

from ..archive import checked
from ..edges import edges
from ..files import held, read_file, replace
from ..fingerprint import beside, digest, fingerprint, read_fingerprint, text_of
from ..marks import read_marks
from ..options import add_form, add_out, add_set, guard, lengths_of, load_board, say
from ..words import Complaint

NAME, GROUP = "cut", "Sets of marks"
HELP = "say which board is cut, of those between low and high lengths"
ABOUT = """A set that was started with --high serves every board between low and high lengths. Once one of them is cut,
this command holds its lengths against the low and the high ones and writes it into MARKS.fingerprint. From then on
sheets are marked and asked over this board."""
EXAMPLE = """revosti fresh examples/square_weights.tsp --high examples/wide_weights.tsp --marks wide.marks
  revosti cut examples/square.tsp --low examples/square_weights.tsp --high examples/wide_weights.tsp --marks wide.marks"""


def add(command):
    """The options."""
    command.add_argument("file", metavar="BOARD", help="the board that is cut: a sheet of either form or FILE.tsp")
    add_form(command)
    for name in ("low", "high"):
        command.add_argument(f"--{name}", metavar="BOARD", required=True, help=f"the board with the {name} lengths")
    add_set(command, "the file of the packed set, whose fingerprint is changed", required=True)
    add_out(command)


def run(options):
    """Holds the three boards and the set against each other, and writes the fingerprint."""
    guard(options)
    cut = lengths_of(load_board(options.file, options.form).parts, options.file)
    low = load_board(options.low).parts
    limits = lengths_of(low, f"--low {options.low}", options.high)
    with held(options.marks):
        checked(options.marks, read_marks, read_file(options.marks), limits.n)
        found = read_fingerprint(options.marks)
        if found is None or found._replace(cut=None) != fingerprint(limits):
            raise Complaint(f"{options.marks}: the set was not started with these low and high lengths")
        if found.cut not in (None, digest(cut.table)):
            raise Complaint(f"{options.marks}: another board is cut already, digest {found.cut[:12]}..")
        between(options.file, cut, limits)
        replace(beside(options.marks), text_of(found._replace(cut=digest(cut.table))))
    say(options, f"{options.file} lies between the low and the high lengths: {options.marks} is a set of it from now on.")


def between(file, cut, limits):
    """Every length of a board lies between the low and the high one."""
    if cut.n != limits.n:
        raise Complaint(f"{file}: the board has {cut.n} points, and the limits are of {limits.n}")
    for (a, b), low, length, high in zip(edges(cut.n), limits.table, cut.table, limits.high):
        if not low <= length <= high:
            raise Complaint(f"{file}: the length of {a}-{b} is {length:,}, not from {low:,} to {high:,}")
