"""Slips (01, Slips): what a marked sheet came to, as one number, and what the examiner and the candidate see of it."""

from .buffers import LONG, fit, lend
from .library import library
from .operations import Function, Sheet, Table, marked, refuse

VIEW = 6  # bytes
STOPPED = 255  # the first byte that the candidate sees of a sheet that stopped, until release


def new_slip(n: int, table: Table, marks: bytearray, sheet: Sheet) -> int:
    """Marks a sheet as `mark_sheet` does, and answers its slip, not released. A refusal is in the slip and is not
    raised."""
    return marked(library().revosti_mark_sheet, n, {"table": table}, marks, sheet)


def new_slip_between(n: int, low: Table, high: Table, marks: bytearray, sheet: Sheet) -> int:
    """The same over two tables, as `mark_between` marks."""
    return marked(library().revosti_mark_between, n, {"low": low, "high": high}, marks, sheet)


def release(slip: int) -> int:
    """The slip, released. Nothing else changes."""
    return library().revosti_release(fit("slip", LONG, slip))


def examiner_view(slip: int) -> bytes:
    """What the examiner sees, six bytes: refusal number or 0, released 0 or 1, record and lines, two bytes each, the
    lower first."""
    return view(library().revosti_examiner_view, slip)


def candidate_view(slip: int) -> bytes:
    """What the candidate sees, six bytes: until release 0 or STOPPED, no record, and the lines; after it what the
    examiner sees."""
    return view(library().revosti_candidate_view, slip)


def view(function: Function, slip: int) -> bytes:
    """The six bytes that a function writes."""
    seen = bytearray(VIEW)
    refuse(function(fit("slip", LONG, slip), *lend(seen)))
    return bytes(seen)
