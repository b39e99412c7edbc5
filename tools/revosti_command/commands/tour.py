"""revosti tour: a tour's length, and whether its edges are open."""

import os

from revosti import Refusal, check_tour

from ..files import read_file
from ..options import add_board, add_json, add_out, add_set, answer, decode, lengths_of, load_board, marks_for
from ..tour import BadTour, read_tour, struck_legs, tell_tour, wrong_tour
from ..words import Complaint

NAME, GROUP = "tour", "Boards"
HELP = "the length of a tour, and whether all its edges are open"
ABOUT = """Checks a tour of a board: its length, and whether all its edges are open in a set, where one is named. TOUR
is the points in order, 1,2,3,.. , or a file with them, also a TSPLIB tour file. A pending edge counts as open."""
EXAMPLE = "revosti tour examples/square.tsp 1,2,3,4"


def add(command):
    """The options."""
    add_board(command)
    command.add_argument("tour", metavar="TOUR", help="1,2,3,.. or a file")
    add_set(command)
    add_json(command)
    add_out(command)


def run(options):
    """Checks the tour."""
    lengths = lengths_of(load_board(options.file, options.form).parts, options.file)
    marks = marks_for(options, lengths)
    tour = tour_of(options.tour)
    found = checked(lengths, marks, tour)
    struck = struck_legs(lengths.n, marks, tour)
    answer(options, lambda: tell_tour(found.length, struck),
           lambda: {"refusal": 0, "length": found.length, "open": found.open, "struck": struck, "tour": tour})


def tour_of(words):
    """The points of a tour on the command line, or in the file that is named there."""
    in_file = os.path.exists(words)
    try:
        return read_tour(decode(read_file(words)) if in_file else words)
    except BadTour as error:
        raise Complaint(f"{words if in_file else '--tour' if words.startswith('-') else 'TOUR'}: {error}") from error


def checked(lengths, marks, tour):
    """The check of a tour; a refusal tells what is wrong with it."""
    try:
        return check_tour(lengths.n, lengths.table, marks, tour)
    except Refusal as refusal:
        refusal.where, refusal.detail = "the tour", wrong_tour(lengths.n, tour)
        raise
