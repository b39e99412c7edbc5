"""revosti draw: the board as SVG."""

from ..case import case_of
from ..draw import Scene, draw
from ..edges import RULES
from ..marks import NAMES, marks_of
from ..options import TSPLIB, add_out, add_set, add_sheet, board_name, lengths_of, load_board, load_sheet, marks_for, pair, record, write
from ..parts import Beside
from ..reason import sketch
from ..telling import FIRST, accepted, only, tell
from ..tour import legs
from ..tsplib import read_board
from ..verdict import dry
from ..words import Complaint
from .tour import checked, tour_of

NAME, GROUP = "draw", "Boards"
HELP = "the board as SVG: holes, edges by mark, a tour, or one case or reason of a sheet"
ABOUT = """Draws a board with the marks that marking its sheet leaves, or with those of a set: open edges are drawn
through, struck ones dashed, pending ones dotted. --record shows one case: K thick, the split point or the centres
ringed, the pairs that stand there dashed; of a new order, the stretch and, thinner, its points in the new order.
--reason shows why one pair at the split of a line does not stand, or how its case is closed, as tell says it: K and the
pair's edges thick, upon them dashed what shuts the pair out, and what is put in."""
EXAMPLE = "revosti draw examples/square.tsp --tour 1,2,3,4 -o square.svg"


def add(command):
    """The options."""
    add_sheet(command, "by coordinates", f"the sheet, text or binary, or FILE{TSPLIB}, a board alone")
    add_set(command, "draw the packed set in this file, not the marks that marking leaves")
    command.add_argument("--tour", metavar="TOUR", help="a tour to draw: 1,2,3,.. or a file")
    command.add_argument("--record", metavar="NUMBER", type=record, help="show the case of this record, over the marks that its line finds")
    command.add_argument("--reason", metavar="PAIR", type=pair,
                         help="show the reason of this pair, as 3-8 or 3,8, at the split of the line of --record, else of the first line")
    command.add_argument("--without", choices=sorted(NAMES.values()), action="append", default=[], help="leave out these edges")
    add_out(command)


def run(options):
    """Draws the board."""
    parts = sheet_of(options).parts
    lengths = lengths_of(parts, board_name(options))
    marks, shown = seen(options, parts, lengths, marks_for(options, lengths))
    tour = [] if options.tour is None else tour_of(options.tour)
    length = checked(lengths, marks, tour).length if options.tour is not None else 0
    scene = Scene(parts.points, RULES[parts.rule], marks_of(marks, lengths.n), legs(tour), length, without=tuple(options.without), **shown)
    write(options, draw(scene).encode("utf-8"))


def seen(options, parts, lengths, marks):
    """The marks that the picture has, and the reason or the case that it shows."""
    if options.reason is not None:
        number = FIRST if options.record is None else options.record
        telling = accepted(parts, tell(parts, lengths, marks, number))
        return telling.verdict.left, {"reason": sketch(telling, only(telling, options.reason, "--reason"), lengths, number)}
    if options.record is not None:
        case = case_of(parts, lengths, marks, options.record)
        return case.marks, {"case": case, "record": options.record}
    return dry(lengths, marks, parts).left if options.marks is None and parts.records else marks, {}


def sheet_of(options):
    """The sheet with its board, or a board alone."""
    if options.board is None and options.form is None and str(options.file or "").endswith(TSPLIB):
        sheet = load_board(options.file, None, read_board)
    else:
        sheet = load_sheet(options, read_board)
    if isinstance(sheet.parts, Beside):
        raise Complaint(f"{board_name(options)}: the board has weights, and a picture needs coordinates")
    return sheet
