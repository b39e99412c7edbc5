"""revosti pairs: the standing pairs of a split."""

from revosti import Refusal

from ..case import case_of
from ..edges import name
from ..fault import outside
from ..options import add_board, add_high, add_json, add_out, add_set, answer, lengths_of, load_board, marks_for, point, record
from ..parts import CROSSING, STRETCH
from ..phrases import say as phrase
from ..words import Complaint, counted

NAME, GROUP = "pairs", "Boards"
HELP = "the pairs that stand at a split"
ABOUT = """Lists the pairs that stand at C under the edge A-B, or with --record those at the split of a record of the
sheet, at any depth, in the order in which a chain names its cases."""
EXAMPLE = "revosti pairs examples/square.tsp 1 2 3"
CLOSED_BY = {CROSSING: "crossing", STRETCH: "new order"}


def add(command):
    """The options."""
    add_board(command)
    for letter in "abc":
        command.add_argument(letter, metavar=letter.upper(), type=point, nargs="?")
    command.add_argument("--record", metavar="NUMBER", type=record, help="the split of this record, in place of A B C")
    add_set(command)
    add_high(command)
    add_json(command)
    add_out(command)


def run(options):
    """Lists the pairs."""
    points = options.a, options.b, options.c
    if None in points and options.record is None or any(points) and options.record is not None:
        raise Complaint("pairs: expected either A B C or --record NUMBER")
    sheet = load_board(options.file, options.form)
    lengths = lengths_of(sheet.parts, options.file, options.high, options.form)
    marks = marks_for(options, lengths)
    found, c, under = (at_record(sheet.parts, lengths, marks, options.record) if options.record is not None
                       else (listed(lengths, marks, *points), points[2], [points[:2]]))
    answer(options, lambda: told(found, c, under), lambda: {"refusal": 0, "split": c, "under": under, "pairs": found})


def listed(lengths, marks, a, b, c):
    """The pairs at c under ab."""
    try:
        return lengths.pairs(marks, a, b, c)
    except Refusal as refusal:
        fields = zip("ABC", (a, b, c))
        refusal.detail = (outside(fields, lengths.n) or f"Here A and B are both {a}.") if refusal.number == 11 else None
        raise


def at_record(parts, lengths, marks, number):
    """The pairs at the split of a record, its split point, and K there."""
    case = case_of(parts, lengths, marks, number)
    if case.kind in CLOSED_BY:
        raise Complaint(f"--record: record {number} has a {CLOSED_BY[case.kind]}, and no split")
    return case.pairs, case.points[0], case.k


def told(pairs, c, under):
    """The pairs as text."""
    edges, stand = ", ".join(name(*e) for e in under), "stands" if len(pairs) == 1 else "stand"
    first = (phrase("pairs_stand", pairs=counted(len(pairs), "pair"), stand=stand, split=c, under=edges) if pairs
             else phrase("no_pair_stands", split=c, under=edges))
    return "\n".join([first, *(f"pair {x}-{y}" for x, y in pairs)])
