"""Revosti from Python: the proved functions of include/revosti.h, in Python's numbers.

measure      coordinates to a table
read_tsplib  a TSPLIB text to n and a table
tsplib_points
             the n of a TSPLIB text
fresh_marks  marks that are all open
mark_sheet   marks a strike sheet: its strikes count at once
ask_sheet    marks it so that its strikes are pending
confirm      strikes what is pending
withdraw     opens it again
list_pairs   the standing pairs of a split
mark_between, list_between
             mark_sheet and list_pairs over two tables, where each length is known to lie between a low one and a high one
check_tour   a tour's length, and whether its edges are open
exchange_saving, move_saving, crossing_saving
             how much a rule saves, below 0 too: it shuts a case out exactly when that is above 0
pack_marks   a byte set to a packed set
unpack_marks a packed set to a byte set
new_slip, new_slip_between
             mark a sheet as mark_sheet and mark_between do, and answer its slip, refused or not
release      the slip, released
examiner_view, candidate_view
             the six bytes that each of them sees of a slip
write_page   a page of the wall list, 60 edges a page, as text
read_page    a page's lengths and marks again; `page_count` gives how many pages there are
open_desks   the state of eight desks
hand_in      hands in a sheet at a desk: its first line waits
next_desk    the desk that the next turn serves
turn         marks one line of that desk, and tells its verdict so far; `desk_of` and `last_served` read the state
tell_line    a sentence for each pair at a line's split: why it does not stand, or how its case is closed

A board has n points, 4 to 180. A table is one length an edge, in the order 1-2, 1-3, .., 1-n, 2-3, ..; `place` gives the place of an edge.
Tables come back as arrays of typecode "I", and such an array is lent to a call as it is. Lists, tuples and generators of
numbers will do as well, but are copied at each call, which takes 40 times as long as a saving.
Marks are a packed set in a bytearray, two bits an edge in the same order, four edges a byte: `mark_of` reads the mark of an edge (OPEN,
PENDING or STRUCK), `marks_size` gives the bytes of a set. A byte set has a byte an edge; only pack_marks and unpack_marks take and give it.
A sheet is any number of records of eight numbers: kind (1 to 5), a, b, u, v, c, d, next. A slip is a number. A TSPLIB text is bytes
(`Path("board.tsp").read_bytes()`), and so is a page. docs/RULES.md has the rules, docs/FORMATS.md the texts and the kinds of records.

Faulty input raises a Refusal, and a refused call changes nothing, but for a sheet that stops at a record: the strikes of the lines accepted
before stay. A number that does not fit its format (32 bits for n, rule, coordinates and lengths, 64 for a slip, 16 for all others) is an
OverflowError, what is no number or no buffer a TypeError, and a point that has not two numbers, or a record that has not
eight, a ValueError; each names the argument, and nothing is called then.

The first call loads the shared object: that which REVOSTI_SHARED names, the one that is installed with this package, or
that of the repository, which it has built where it is not up to date. It raises NoLibrary where there is none.
"""

from .desks import DESKS, DESKS_BYTES, Desk, Turn, desk_of, hand_in, last_served, next_desk, open_desks, turn
from .library import NoLibrary
from .operations import (LEAST_POINTS, MOST_POINTS, OPEN, PENDING, STRUCK, Instance, Tour, ask_sheet, check_tour, confirm, crossing_saving,
                         exchange_saving, fresh_marks, list_between, list_pairs, mark_between, mark_of, mark_sheet, marks_size, measure,
                         move_saving, pack_marks, place, read_tsplib, tsplib_points, unpack_marks, withdraw)
from .pages import LINE_BYTES, PAGE_LINES, page_count, read_page, write_page
from .refusal import Refusal, meaning
from .slips import STOPPED, candidate_view, examiner_view, new_slip, new_slip_between, release
from .telling import tell_line

__version__ = "1.0.0"

__all__ = ["DESKS", "DESKS_BYTES", "Desk", "Instance", "LEAST_POINTS", "LINE_BYTES", "MOST_POINTS", "NoLibrary", "OPEN", "PAGE_LINES",
           "PENDING", "Refusal", "STOPPED", "STRUCK", "Tour", "Turn", "ask_sheet", "candidate_view", "check_tour", "confirm",
           "crossing_saving", "desk_of", "examiner_view", "exchange_saving", "fresh_marks", "hand_in", "last_served", "list_between",
           "list_pairs", "mark_between", "mark_of", "mark_sheet", "marks_size", "meaning", "measure", "move_saving", "new_slip",
           "new_slip_between", "next_desk", "open_desks", "pack_marks", "page_count", "place", "read_page", "read_tsplib", "release",
           "tell_line", "tsplib_points", "turn", "unpack_marks", "withdraw", "write_page"]
