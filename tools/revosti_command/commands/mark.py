"""revosti mark: strikes that count at once."""

from ..handing import add_handing, hand_in
from ..lengths import Lengths
from ..options import add_high

NAME, GROUP = "mark", "Sets of marks"
HELP = "mark a sheet over a set: its strikes count at once"
ABOUT = """Marks a strike sheet over the set in a file, which is changed: the edge of each accepted line is struck. A
sheet that stops at a record keeps the lines before it. The answer is the verdict in words, with the record at fault and
the pairs that are due."""
EXAMPLE = """revosti fresh examples/square.tsp --marks square.marks
  revosti mark --board examples/square.tsp examples/square.txt --marks square.marks"""


def add(command):
    """The options."""
    add_handing(command)
    add_high(command)


def run(options):
    """Marks the sheet."""
    return hand_in(options, Lengths.mark, options.high)
