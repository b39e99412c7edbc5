"""revosti slip: what examiner and candidate see."""

from revosti import release

from ..explain import told
from ..options import add_high, add_json, add_out, add_set, add_sheet, answer, board_name, lengths_of, load_sheet, marks_for, slip
from ..slip import as_json, tell_slip
from ..verdict import dry

NAME, GROUP = "slip", "Sheets"
HELP = "what examiner and candidate see of a marked sheet, or of a slip"
ABOUT = """Shows the slip of a sheet, as marking it over fresh marks or a set makes it; the set stays as it is. Below
stands, for the examiner, why a sheet is refused. --number shows a slip that a program kept."""
EXAMPLE = "revosti slip --board examples/square.tsp examples/square.txt"


def add(command):
    """The options."""
    add_sheet(command)
    command.add_argument("--number", metavar="SLIP", type=slip, help="the slip with this number; no file is read then")
    command.add_argument("--release", action="store_true", help="release it first")
    add_set(command)
    add_high(command)
    add_json(command)
    add_out(command)


def run(options):
    """Shows the slip."""
    number, more = options.number, ""
    if number is None:
        sheet = load_sheet(options)
        lengths = lengths_of(sheet.parts, board_name(options), options.high, options.form)
        verdict = dry(lengths, marks_for(options, lengths), sheet.parts)
        number = verdict.slip
        more = f"\n\n{told(sheet, verdict)}" if verdict.refusal and not options.json else ""
    number = release(number) if options.release else number
    answer(options, lambda: tell_slip(number) + more, lambda: as_json(number))
    return 1 if number & 0xff else 0
