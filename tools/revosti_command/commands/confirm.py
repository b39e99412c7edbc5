"""revosti confirm: what is pending is struck."""

from revosti import confirm

from ..handing import add_settling, settle

NAME, GROUP = "confirm", "Sets of marks"
HELP = "strike what is pending in a set"
ABOUT = "Strikes every pending edge of the set in a file, which is changed."
EXAMPLE = """revosti fresh examples/square.tsp --marks square.marks
  revosti ask --board examples/square.tsp examples/square.txt --marks square.marks
  revosti confirm --marks square.marks"""


def add(command):
    """The options."""
    add_settling(command)


def run(options):
    """Confirms."""
    return settle(options, confirm)
