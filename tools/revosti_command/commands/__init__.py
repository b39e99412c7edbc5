"""The commands, one file each. A file has

NAME     the command's name; the file has it, too, with _ for -
GROUP    the heading that it stands under in `revosti --help`, one of GROUPS
HELP     one line for `revosti --help`
ABOUT    what `revosti NAME --help` says first
EXAMPLE  a call that works in a folder that has this repository's `examples`
add      a function that gives its options to a parser of argparse
run      a function of the options; it answers the exit status, or None for 0

and is found by being here.
"""

from importlib import import_module
from pkgutil import iter_modules

GROUPS = ("Sheets", "Sets of marks", "Boards")


def every_command():
    """The modules of this folder, by group and name."""
    modules = [import_module(f"{__name__}.{name}") for name in names()]
    return sorted(modules, key=lambda module: (GROUPS.index(module.GROUP), module.NAME))


def commands_for(word):
    """The module of one command by its name, or all of them where the word is no name."""
    name = word.replace("-", "_")
    return [import_module(f"{__name__}.{name}")] if name in names() and word == name.replace("_", "-") else every_command()


def names():
    """The names of the files."""
    return [found.name for found in iter_modules(__path__)]
