"""revosti desks: eight desks, whose sheets are marked a line a turn."""

import argparse

from revosti import Refusal

from ..explain import as_json, counts, told
from ..files import STANDARD, real
from ..hall import enter, hand_in_at, open_hall, seats, take_turn
from ..options import add_json, add_out, answer, digits_of, file_name, guard, say
from ..parts import MAX_32
from ..phrases import say as phrase
from ..verdict import counted_marks
from ..words import Complaint, are, counted

NAME, GROUP = "desks", "Sheets"
HELP = "eight desks that hand in sheets, marked in turns of one line"
ABOUT = """Runs a practical of eight desks in a folder, HALL: "open BOARD" makes it, with fresh marks for each desk in
HALL/1/marks to HALL/8/marks; "hand-in DESK SHEET" has a sheet wait at a desk; "turn" marks one line of the next desk
that has one, and "all" goes on until no desk has a line left; "show" tells what each desk has. A sheet is a text
without a board, or any sheet of the same board. When it has ended, HALL/DESK/slip has its slip."""
EXAMPLE = """revosti desks hall open examples/square.tsp
  revosti desks hall hand-in 1 examples/square.txt
  revosti desks hall turn
  revosti desks hall all
  revosti desks hall show"""

WORDS = {"open": "BOARD", "hand-in": "DESK SHEET", "turn": "", "all": "", "show": ""}
READ = {"BOARD": file_name, "DESK": lambda text: digits_of(text, "a desk", MAX_32), "SHEET": str}


class Named(argparse.Action):
    """The words of an action, as many as it takes."""

    def __call__(self, parser, options, words, _=None):
        wanted = WORDS[options.action].split()
        if len(words) != len(wanted):
            takes = " and ".join(wanted) or "no word"
            raise argparse.ArgumentError(self, f"{options.action} takes {takes}, found {counted(len(words), 'word')}")
        try:
            options.words = [READ[name](word) for name, word in zip(wanted, words)]
        except argparse.ArgumentTypeError as error:
            raise argparse.ArgumentError(self, str(error)) from error


def add(command):
    """The options."""
    command.add_argument("hall", metavar="HALL", help="the folder")
    command.add_argument("action", choices=WORDS, help="; ".join(f"{name} {words}".strip() for name, words in WORDS.items()))
    command.add_argument("words", metavar="WORD", nargs="*", action=Named,
                         help="BOARD: a sheet of either form or FILE.tsp; DESK: 1 to 8; SHEET: a file, or - for standard input")
    command.add_argument("--force", action="store_true", help="open new desks in a folder that has some, and drop these")
    add_json(command)
    add_out(command)


def run(options):
    """Does what the action says."""
    guard(options)
    if options.out not in STANDARD and real(options.hall) in real(options.out).parents:
        raise Complaint(f"{options.out}: the answer would stand among the desks' own files")
    try:
        return {"open": opened, "hand-in": handed_in, "turn": turned, "all": turned, "show": shown}[options.action](options)
    except Refusal as refusal:
        refusal.where = getattr(refusal, "where", options.hall)
        raise


def opened(options):
    """Opens the desks."""
    hall = open_hall(options.hall, options.words[0], options.force)
    options.changed = options.hall
    answer(options, lambda: phrase("desks_open", points=counted(hall.lengths.n, "point")), lambda: found(hall))


def handed_in(options):
    """Hands in a sheet."""
    hall, (desk, file) = enter(options.hall), options.words
    hand_in_at(hall, desk, file)
    options.changed = options.hall
    answer(options, lambda: phrase("desk_handed_in", desk=desk), lambda: found(hall))


def turned(options):
    """Takes a turn, or all, and tells each as it comes."""
    hall, turns = enter(options.hall), []
    at_once = options.out in STANDARD and not options.json
    while options.action == "all" or not turns:
        taken = take_turn(hall)
        if taken is None:
            break
        turns.append(taken)
        options.changed = options.hall
        if at_once:
            say(options, sentence(taken))
    last = [] if taken else [phrase("turns_taken", turns=counted(len(turns), "turn")) if turns else f"{phrase('no_line_left')}."]
    if last or not at_once:
        answer(options, lambda: "\n".join([*([] if at_once else map(sentence, turns)), *last]), lambda: found(hall, turns))
    return 1 if any(taken.turn.refusal for taken in turns) else 0


def sentence(taken):
    """What a turn tells."""
    desk, lines = taken.turn.desk, counted(taken.turn.lines, "line")
    if taken.turn.line_left:
        return phrase("desk_so_far", desk=desk, lines=lines)
    if taken.turn.refusal == 0:
        return phrase("desk_accepted", desk=desk, lines=lines, marks=counts(taken.verdict.left, taken.verdict.lengths.n))
    return phrase("desk_told", desk=desk, words=told(taken.sheet, taken.verdict)) + "\n"


def shown(options):
    """Tells what each desk has."""
    hall = enter(options.hall)
    answer(options, lambda: table(hall), lambda: found(hall))


def table(hall):
    """Who is served next, and a line a desk."""
    following, last, every = seats(hall)
    first = phrase("served_next", desk=following) if following else phrase("no_line_left")
    return "\n".join([phrase("served_last", next=first, desk=last) if last else phrase("none_served", next=first),
                      *(row(seat, hall.lengths.n) for seat in every)])


def row(seat, n):
    """What a desk has."""
    if seat.held.line_left:
        source = phrase("leads_to", owner=seat.held.owner) if seat.held.owner else ""
        state = phrase("line_waits", record=seat.held.index, source=source, lines=counted(seat.held.lines, "line"),
            are=are(seat.held.lines))
    elif any(seat.held):  # by nobody who hands in or takes turns
        state = f"no line left, though its numbers are {' '.join(map(str, seat.held))}."
    elif seat.slip is None:
        state = phrase("no_sheet")
    else:
        state = phrase("sheet_ended", slip=seat.slip)
    return f"Desk {seat.desk}: {state} {counts(seat.marks, n)}"


def found(hall, turns=()):
    """The turns that were taken, and what each desk has, as a dictionary."""
    following, last, every = seats(hall)
    told_turns = [{"desk": turn.desk, "line_left": turn.line_left, **as_json(sheet, verdict)} for turn, sheet, verdict in turns]
    return {"refusal": next((turn.refusal for turn, *_ in turns if turn.refusal), 0), "next": following or 0, "last": last,
            "turns": told_turns,
            "desks": [{"desk": seat.desk, "line_left": seat.held.line_left, **seat.held._asdict(), "slip": seat.slip,
                       **counted_marks(seat.marks, hall.lengths.n)} for seat in every]}
