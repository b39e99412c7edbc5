"""revosti ask: strikes that are pending."""

from ..handing import add_handing, hand_in
from ..lengths import Lengths

NAME, GROUP = "ask", "Sets of marks"
HELP = "ask a sheet over a set: its strikes are pending"
ABOUT = """Marks a strike sheet over the set in a file, which is changed: the edge of each accepted line is pending,
until "revosti confirm" strikes it or "revosti withdraw" opens it again. The answer is as that of "revosti mark"."""
EXAMPLE = """revosti fresh examples/square.tsp --marks square.marks
  revosti ask --board examples/square.tsp examples/square.txt --marks square.marks"""


def add(command):
    """The options."""
    add_handing(command)


def run(options):
    """Asks the sheet."""
    return hand_in(options, Lengths.ask)
