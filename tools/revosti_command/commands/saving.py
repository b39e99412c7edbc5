"""revosti saving: how much a rule saves."""

import argparse

from revosti import Refusal

from ..fault import outside
from ..options import add_board, add_out, lengths_of, load_board, point, say
from ..saving import SAVINGS, tell

NAME, GROUP = "saving", "Boards"
HELP = "how much a rule saves on a board"
ABOUT = """Tells what an exchange, a move or a crossing saves on a board, with the sums. It shuts a case out exactly
when that is above 0."""
EXAMPLE = "revosti saving examples/square.tsp exchange 1 3 2 4"


class Named(argparse.Action):
    """The points that a rule names, as many as it takes."""

    def __call__(self, parser, options, points, _=None):
        wanted = SAVINGS[options.rule].points
        count = len(wanted.split())
        if len(points) != count:
            raise argparse.ArgumentError(self, f"{options.rule} takes {count} points, {wanted}, found {len(points)}")
        options.points = points


def add(command):
    """The options."""
    add_board(command)
    command.add_argument("rule", choices=SAVINGS, help="exchange of two edges, move of a point, or crossing")
    command.add_argument("points", metavar="POINT", nargs="+", type=point, action=Named,
                         help="; ".join(f"{name}: {rule.points}" for name, rule in SAVINGS.items()))
    add_out(command)


def run(options):
    """Tells the saving."""
    lengths = lengths_of(load_board(options.file, options.form).parts, options.file)
    try:
        say(options, tell(lengths, options.rule, options.points))
    except Refusal as refusal:
        fields = zip(SAVINGS[options.rule].points.split(), options.points)
        refusal.detail = outside(fields, lengths.n) if refusal.number == 11 else None
        raise
