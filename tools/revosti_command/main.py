"""The command line. Exit status: 0 accepted or done, 1 refused, 2 bad use or a bad text, 3 it could not run."""

import argparse
import json
import os
import signal
import sys
from contextlib import suppress
from functools import cache
from textwrap import fill

from revosti import NoLibrary, Refusal

from .commands import GROUPS, commands_for
from .files import note, write_out
from .words import Complaint

DESCRIPTION = "Strike sheets, sets of marks and boards, over the proved functions of Revosti (docs/RULES.md, docs/FORMATS.md)."
COLUMNS = 79
STATUS = "Exit status: 0 accepted or done, 1 refused, 2 bad use or a bad text, 3 could not run."


def main(arguments=None):
    """Run one command and return its exit status."""
    options = None
    try:
        if signal.getsignal(signal.SIGINT) is signal.SIG_DFL:
            signal.signal(signal.SIGINT, signal.default_int_handler)
        words = sys.argv[1:] if arguments is None else arguments
        options = parser(words[0] if words else "").parse_args(words)
        return options.run(options) or 0
    except SystemExit as end:  # the help, or bad use
        return flushed(end.code)
    except Refusal as refusal:
        return refused(options, refusal)
    except Complaint as complaint:
        return complain(f"{complaint}{left(options)}", complaint.status)
    except NoLibrary as error:
        return complain(str(error), 3)
    except BrokenPipeError:
        with suppress(OSError):
            os.dup2(os.open(os.devnull, os.O_WRONLY), sys.stdout.fileno())
        return complain(f"standard output: nobody reads it any more{left(options)}", 3) if left(options) else 3
    except OSError as error:
        return complain(f"{error.filename or 'standard output'}: {error.strerror}", 3)
    except KeyboardInterrupt:
        note(f"stopped{left(options)}")
        return stopped()


def flushed(status):
    """The status once what argparse printed is written."""
    try:
        if sys.stdout is not None:
            write_out(b"")
    except Complaint as complaint:
        return complain(str(complaint), complaint.status)
    return status


def complain(message, status):
    """Say what is wrong."""
    note(message)
    return status


def left(options):
    """What is to be known of a set where a command fails after it was changed."""
    changed = getattr(options, "changed", None)
    return f"; {changed} is changed" if changed else ""


def refused(options, refusal):
    """Tells a refusal, with what is known of it."""
    more = getattr(refusal, "detail", None)
    if getattr(options, "json", False):
        write_out(json.dumps({"refusal": refusal.number, "record": refusal.record, "words": refusal.words,
                              "detail": more}).encode() + b"\n")
        return 1
    where = getattr(refusal, "where", None)
    return complain(" ".join(filter(None, (where and f"{where}:", str(refusal), more))), 1)


def stopped():
    """Ends as a program ends that Ctrl-C stops, so that a shell stops, too."""
    signal.signal(signal.SIGINT, signal.SIG_DFL)
    os.kill(os.getpid(), signal.SIGINT)
    return 130


@cache
def parser(word=""):
    """The command with this name and its options, or all of them."""
    modules = commands_for(word)
    top = argparse.ArgumentParser(prog="revosti", description=filled(DESCRIPTION), epilog=overview(modules),
                                  usage="revosti COMMAND ..\n\nrevosti --help lists the commands, revosti COMMAND --help tells the "
                                        "options of one.",
                                  formatter_class=argparse.RawDescriptionHelpFormatter)
    commands = top.add_subparsers(required=True, prog="revosti", metavar="COMMAND", help=argparse.SUPPRESS)
    for module in modules:
        command = commands.add_parser(module.NAME, description=filled(module.ABOUT), epilog=epilog(module), allow_abbrev=False,
                                      formatter_class=argparse.RawDescriptionHelpFormatter)
        module.add(command)
        command.set_defaults(run=module.run, changed=None)
    return top


def filled(text):
    """A text in lines that fit a terminal."""
    return fill(" ".join(text.split()), COLUMNS)


def overview(modules):
    """The commands by group, a line each."""
    rows = []
    for group in GROUPS:
        rows += [f"{group}:", *(f"  {module.NAME:<12}{module.HELP}" for module in modules if module.GROUP == group), ""]
    return "\n".join([*rows, "Example:", "  revosti explain examples/square.bin", "", STATUS])


def epilog(module):
    """What stands below the options of a command."""
    return f"Example:\n  {module.EXAMPLE}\n\n{STATUS}"
