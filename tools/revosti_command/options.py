"""The options that commands share, and what they lead to: sheets, boards, sets, and where the answer goes."""

import argparse
import json

from revosti import Refusal, fresh_marks

from .archive import is_set, load_set
from .fault import file_words
from .files import STANDARD, name_of, read_file, replace, write_out
from .fingerprint import hold
from .lengths import Lengths, measured
from .parts import MAX_16, split
from .read import Sheet, pack, pack_beside
from .scan import BadText
from .tsplib import BadBoard, read_text
from .words import Complaint

CONTROLS = frozenset(range(32)) - frozenset(b"\t\n\r")
TSPLIB = ".tsp"  # ends the name of a board's file that is a TSPLIB text
UTF_16 = (b"\xff\xfe", b"\xfe\xff")
MAX_64 = 2**64 - 1
BOARD = f"a sheet of either form, whose records are not read, - for standard input; or FILE{TSPLIB}, a TSPLIB text"


def add_out(command):
    """The option for where the answer goes."""
    command.add_argument("-o", metavar="OUT", dest="out", help="write to this file, not to standard output")


def add_json(command):
    """The option for an answer that programs read."""
    command.add_argument("--json", action="store_true", help="answer as one line of JSON")


def add_form(command):
    """The option for a file's form."""
    command.add_argument("--form", choices=("text", "binary"),
                         help="the form of the file; else a file without control characters is a text")


def add_sheet(command, board="by coordinates or weights", sheet="the sheet, text or binary"):
    """A sheet, alone or beside its board."""
    command.add_argument("file", nargs="?", metavar="FILE", help=f"{sheet}; standard input if none is named")
    source = command.add_mutually_exclusive_group()
    add_form(source)
    source.add_argument("--board", metavar=f"FILE{TSPLIB}", help=f"a TSPLIB text with the board, {board}; the sheet is a text without one")


def add_board(command, **nargs):
    """A board alone."""
    command.add_argument("file", metavar="BOARD", help=BOARD, **nargs)
    add_form(command)


def add_set(command, text="the packed set in this file, not fresh marks", **required):
    """The option for a set."""
    command.add_argument("--marks", metavar="MARKS", type=file_name, help=text, **required)


def add_changed_set(command):
    """The option for the set that a command changes."""
    add_set(command, "the file of the packed set, which is changed", required=True)


def add_high(command):
    """The option for a second board."""
    command.add_argument("--high", metavar="BOARD", help="the board with the high lengths; those of the first are then the low ones")


def file_name(text):
    """A file on the command line that has a place beside it."""
    if text in ("", "-"):
        raise argparse.ArgumentTypeError(f'expected the name of a file, found "{text}"')
    return text


def digits_of(text, what, most):
    """A number from 0 on the command line."""
    if not (text.isascii() and text.isdigit()):
        raise argparse.ArgumentTypeError(f'expected {what}, found "{text}"')
    digits = text.lstrip("0") or "0"
    if len(digits) > len(str(most)) or int(digits) > most:
        raise argparse.ArgumentTypeError(f"expected {what} from 0 to {most}, found {digits}")
    return int(digits)


def point(text):
    """A point on the command line. Whether the board has it is for the call to say."""
    return digits_of(text, "a point", MAX_16)


def record(text):
    """A record's number on the command line."""
    return digits_of(text, "a record", MAX_16)


def pair(text):
    """Two points on the command line, 3-8 or 3,8."""
    points = text.replace(",", "-").split("-")
    if len(points) != 2:
        raise argparse.ArgumentTypeError(f'expected a pair of points, as 3-8 or 3,8, found "{text}"')
    return tuple(map(point, points))


def slip(text):
    """A slip on the command line: every number of 64 bits is one."""
    return digits_of(text, "a slip", MAX_64)


def decode(data):
    """Bytes as text; what is no UTF-8 becomes a character that is refused outside comments."""
    return data.decode("utf-8-sig", "replace")


def is_text(data):
    """Whether bytes look like the text form: some, none of them controls. Binary sheets have zero bytes in their
    rule."""
    return bool(data) and CONTROLS.isdisjoint(data)


def is_wide(data):
    """Whether bytes look like a text in UTF-16, which some editors write: two bytes a letter."""
    even, odd = data[0:8:2], data[1:8:2]
    spaced = len(data) >= 8 and any(all(letters) and not any(zeros) for letters, zeros in ((even, odd), (odd, even)))
    return len(data) % 2 == 0 and (data[:2] in UTF_16 or spaced)


def text_sheet(file, data, board=None):
    """The sheet in a text, with its board in it or beside one."""
    if is_wide(data):
        raise Complaint(f"{name_of(file)}: the text is UTF-16, two bytes a letter; save it as UTF-8")
    try:
        return pack(decode(data)) if board is None else pack_beside(board, decode(data))
    except BadText as error:
        raise Complaint(f"{name_of(file)}, {error}") from error


def board_of(file, read=read_text):
    """The board of a TSPLIB text."""
    data = read_file(file)
    try:
        return read(data)
    except BadBoard as error:
        hint = "; the text is UTF-16: save it as UTF-8" if is_wide(data) else ""
        raise Complaint(f"{name_of(file)}{error}{hint}") from error


def load_sheet(options, read=read_text):
    """The sheet in a file of either form. Beside a board it is a text."""
    if options.board is not None:
        return text_sheet(options.file, read_file(options.file), board_of(options.board, read))
    return load_file(options.file, options.form)


def load_file(file, form):
    """The sheet in a file of either form."""
    data = read_file(file)
    as_text = form == "text" or form is None and (is_text(data) or is_wide(data))
    return text_sheet(file, data) if as_text else Sheet(split(data), [])


def load_board(file, form=None, read=read_text):
    """The sheet of a board's file: of a TSPLIB text where its name says so and no form is asked for, it has no
    records."""
    if form is None and str(file or "").endswith(TSPLIB):
        return Sheet(board_of(file, read), [])
    return load_file(file, form)


def lengths_of(parts, file, high=None, form=None):
    """The lengths of a board, and of a second one where its file is named, of this form if one is given."""
    second = None if high is None else load_board(high, form).parts
    table = refused_at(file, parts, measured, parts)
    if second is None:
        return Lengths(parts.n, table)
    return Lengths(parts.n, table, refused_at(f"--high {high}", second, measured, second))


def refused_at(where, parts, call, *arguments):
    """What a call answers; a refusal names the file and tells what the file shows."""
    try:
        return call(*arguments)
    except Refusal as refusal:
        refusal.where, refusal.detail = name_of(where), file_words(parts, refusal.number)
        raise


def board_name(options):
    """The file that the board is in."""
    return getattr(options, "board", None) or options.file


def marks_for(options, lengths):
    """The set that is named, held against the board, or fresh marks."""
    if options.marks is None:
        return fresh_marks(lengths.n)
    hold(options.marks, lengths)
    return load_set(options.marks, lengths.n)


def write(options, data):
    """Puts bytes where the options say."""
    guard(options)
    if options.out in STANDARD:
        write_out(data)
    else:
        replace(options.out, data)


def guard(options):
    """A set of marks is not overwritten by what a command says. One that changes a set asks this first."""
    if options.out not in STANDARD and is_set(options.out):
        raise Complaint(f"{options.out}: this is a set of marks, with its fingerprint beside it, and is not overwritten")


def say(options, words):
    """Puts text where the options say."""
    write(options, f"{words}\n".encode("utf-8", "surrogateescape"))


def answer(options, words, found):
    """Puts an answer where the options say: in words, or as JSON."""
    say(options, json.dumps(found()) if options.json else words())

