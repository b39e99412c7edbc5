"""The fingerprint of a set: a small text beside its file that tells which lengths the set is of.

A set fits every board of as many points, and what demand 3 promises holds for the lengths that it was marked over
alone. `fresh` writes the fingerprint; every command that takes a board and a set holds the board against it. A set
without one is of unknown origin, which is said.
"""

import re
from array import array
from hashlib import sha256
from typing import NamedTuple

from .files import named, note, read_file, real
from .phrases import say
from .words import Complaint, counted

VALUES = {"points": "[0-9]{1,3}", **dict.fromkeys(("table", "high", "cut"), "[0-9a-f]{64}")}
SHOWN = 12  # digits of a digest in messages


class Fingerprint(NamedTuple):
    """The number of points, and the digests of the table, of the high table where there are two, and of the table
    between them that is cut."""

    n: int
    table: str
    high: str | None = None
    cut: str | None = None


def digest(table):
    """The digest of a table: SHA-256 of its lengths, 32 bits each, little-endian."""
    return sha256(array("I", table).tobytes()).hexdigest()


def fingerprint(lengths):
    """The fingerprint of a table, or of two."""
    return Fingerprint(lengths.n, digest(lengths.table), None if lengths.high is None else digest(lengths.high))


def beside(file):
    """Where the fingerprint of a set's file stands."""
    place = real(file)
    return place.with_name(f"{place.name}.fingerprint")


def text_of(found):
    """The fingerprint as text."""
    rows = [("table", found.table), ("high", found.high), ("cut", found.cut)]
    return "".join(["# which lengths the set of marks beside it is of (docs/FORMATS.md)\n", f"points {found.n}\n",
                    *(f"{name} {value}\n" for name, value in rows if value)]).encode()


def read_fingerprint(file):
    """The fingerprint of a set's file, or None where there is none."""
    place = beside(file)
    with named(place):
        if not place.exists():
            return None
    values = {}
    for number, line in enumerate(read_file(place).decode("ascii", "replace").splitlines(), 1):
        words = line.partition("#")[0].split()
        if words and not fits(words, values):
            raise Complaint(f"{place}, {say('print_line', line=number)}")
        values |= dict([words] if words else [])
    if not {"points", "table"} <= set(values):
        raise Complaint(f"{place}: {say('print_lacks')}")
    return Fingerprint(int(values["points"]), values["table"], values.get("high"), values.get("cut"))


def fits(words, values):
    """Whether some words are a name and its value, and the name is not there yet."""
    return len(words) == 2 and words[0] in VALUES and words[0] not in values and re.fullmatch(VALUES[words[0]], words[1])


def hold(file, lengths, changing=False):
    """Holds a board, or two, against the fingerprint of a set's file. A set that is changed over one board has to be of
    that one alone, or this is the one that is cut; to look at it, either of two boards will do."""
    found = read_fingerprint(file)
    if found is None:
        note(f"{file}: {say('set_unknown', name=beside(file).name)}")
        return
    given = fingerprint(lengths)
    if (given.n, given.table, given.high) == (found.n, found.table, found.high):
        return
    if given.high is None and given.table in ((found.cut,) if changing else (found.table, found.high, found.cut)):
        return
    raise Complaint(f"{file}: {reason(found, given)}")


def reason(found, given):
    """Why a board is not the one of a set."""
    if given.table in (found.table, found.high) and found.high and not given.high:
        return say("set_limits")
    if given.table == found.table and given.high and not found.high:
        return 'the set is of one board, and --high names a second; "revosti fresh BOARD --high BOARD" starts a set of both'
    if given.table == found.table and given.high:
        return f"the set is of other high lengths: digest {found.high[:SHOWN]}.., and those of --high have {given.high[:SHOWN]}.."
    return say("set_other", points=counted(found.n, "point"), digest=found.table[:SHOWN], these=counted(given.n, "point"),
               this=given.table[:SHOWN])
