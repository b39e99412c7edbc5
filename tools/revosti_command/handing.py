"""What the commands share that change a set: marking and asking a sheet, confirming and withdrawing."""

from revosti import Refusal

from .archive import change
from .edges import edge_count
from .explain import as_json, counts, told
from .options import add_changed_set, add_json, add_out, add_sheet, answer, board_name, guard, lengths_of, load_sheet
from .phrases import say
from .verdict import counted_marks, judge
from .words import are, counted


def add_handing(command):
    """The options of a command that takes a sheet and a set."""
    add_sheet(command)
    add_changed_set(command)
    add_json(command)
    add_out(command)


def hand_in(options, operation, high=None):
    """Marks or asks a sheet over the set of a file, and tells the verdict."""
    guard(options)
    sheet = load_sheet(options)
    lengths = lengths_of(sheet.parts, board_name(options), high, options.form)
    verdict = change(options.marks, lambda _, marks: judge(operation, lengths, marks, sheet.parts), lengths)
    options.changed = options.marks if verdict.found != verdict.left else None
    answer(options, lambda: accepted(verdict) if not verdict.refusal else told(sheet, verdict), lambda: as_json(sheet, verdict))
    return 1 if verdict.refusal else 0


def accepted(verdict):
    """What a sheet came to that is accepted whole."""
    return f"{say('handed_in', lines=counted(verdict.lines, 'line'), are=are(verdict.lines))} {counts(verdict.left, verdict.lengths.n)}"


def add_settling(command):
    """The options of a command that takes a set alone."""
    add_changed_set(command)
    add_json(command)
    add_out(command)


def settle(options, operation):
    """Confirms or withdraws what is pending in the set of a file, and tells what it holds then."""
    def call(n, marks):
        operation(n, marks)
        return n, bytes(marks)
    guard(options)
    try:
        n, marks = change(options.marks, call)
    except Refusal as refusal:
        refusal.where = options.marks
        raise
    options.changed = options.marks
    answer(options, lambda: counts(marks, n), lambda: {"refusal": 0, "points": n, "edges": edge_count(n), **counted_marks(marks, n)})
