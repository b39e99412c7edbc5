"""revosti withdraw: what is pending is open again."""

from revosti import withdraw

from ..handing import add_settling, settle

NAME, GROUP = "withdraw", "Sets of marks"
HELP = "open again what is pending in a set"
ABOUT = "Opens every pending edge of the set in a file again. The file is changed."
EXAMPLE = """revosti fresh examples/square.tsp --marks square.marks
  revosti ask --board examples/square.tsp examples/square.txt --marks square.marks
  revosti withdraw --marks square.marks"""


def add(command):
    """The options."""
    add_settling(command)


def run(options):
    """Withdraws."""
    return settle(options, withdraw)
