"""revosti tell: the reasons of a line in words."""

from ..explain import as_json, told
from ..options import add_json, add_out, add_set, add_sheet, answer, board_name, lengths_of, load_sheet, marks_for, pair, record
from ..telling import FIRST, only, tell

NAME, GROUP = "tell", "Sheets"
HELP = "the reasons of a line in words, a sentence for each pair at its split"
ABOUT = """Tells a line of a sheet that is accepted: for each pair at its split, why the pair does not stand, or how its
case is closed. The marks are those that the line finds: fresh marks or a set, which stays as it is, and over them the
lines before it, which are marked on a copy. A pending edge counts as struck. A line that is refused gets its refusal."""
EXAMPLE = "revosti tell examples/reasons.txt --record 3"


def add(command):
    """The options."""
    add_sheet(command)
    command.add_argument("--record", metavar="NUMBER", type=record, default=FIRST,
                         help="the record of the line; the first line if none is named")
    command.add_argument("--only", metavar="PAIR", type=pair, help="the sentence of one pair, as 3-8 or 3,8")
    add_set(command)
    add_json(command)
    add_out(command)


def run(options):
    """Tells the line."""
    sheet = load_sheet(options)
    lengths = lengths_of(sheet.parts, board_name(options))
    telling = tell(sheet.parts, lengths, marks_for(options, lengths), options.record)
    verdict = telling.verdict
    if verdict.refusal:
        answer(options, lambda: told(sheet, verdict), lambda: as_json(sheet, verdict))
        return 1
    reasons = telling.reasons if options.only is None else [only(telling, options.only, "--only")]
    answer(options, lambda: "\n".join(reason.sentence for reason in reasons),
           lambda: {"refusal": 0, "record": options.record, "edge": telling.edge, "split": telling.split,
                    "reasons": [reason._asdict() for reason in reasons]})
    return 0
