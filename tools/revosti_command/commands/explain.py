"""revosti explain: the verdict on a sheet in words."""

from revosti import Refusal

from ..explain import as_json, explain
from ..options import add_high, add_json, add_out, add_set, add_sheet, answer, board_name, lengths_of, load_sheet, marks_for
from ..verdict import Verdict, dry

NAME, GROUP = "explain", "Sheets"
HELP = "the verdict on a sheet in words; nothing is changed"
ABOUT = """Tells what marking a sheet comes to, over fresh marks or a set, which stays as it is: the edges that it
strikes, or the record at fault in its place, with the pairs that are due."""
EXAMPLE = "revosti explain --board examples/square.tsp examples/square.txt"


def add(command):
    """The options."""
    add_sheet(command)
    add_set(command)
    add_high(command)
    add_json(command)
    add_out(command)


def run(options):
    """Explains the sheet."""
    sheet = load_sheet(options)
    try:
        lengths = lengths_of(sheet.parts, board_name(options), options.high, options.form)
    except Refusal as refusal:
        if str(refusal.where).startswith("--high"):
            raise
        verdict = Verdict(refusal.number)
    else:
        verdict = dry(lengths, marks_for(options, lengths), sheet.parts)
    answer(options, lambda: explain(sheet, verdict), lambda: as_json(sheet, verdict))
    return 1 if verdict.refusal else 0
