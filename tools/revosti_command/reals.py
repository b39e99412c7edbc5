"""A board from a TSPLIB text as others write it: real coordinates, tabs, carriage returns, keywords that are of no
matter here.

Coordinates are scaled and rounded to whole ones, exactly; what was done is told.
"""

import re
from fractions import Fraction
from typing import NamedTuple

from revosti import LEAST_POINTS, MOST_POINTS

from .parts import MAX_COORDINATE, Parts
from .tsplib import NODES, NUMBERS, lines_of, shown
from .words import counted

REAL = re.compile(r"[+-]?([0-9]+\.?[0-9]*|\.[0-9]+)([eE][+-]?[0-9]{1,2})?", re.ASCII)
BOM = b"\xef\xbb\xbf"
LONGEST = 40  # characters of a number


class BadReals(Exception):
    """A text that gives no board: what is wrong, and at which line, 0 if it is none of one line."""

    def __init__(self, message, line=0):
        super().__init__(f", line {line}: {message}" if line else f": {message}")


class Board(NamedTuple):
    """The pieces of a board, and sentences about what was done to it."""

    parts: Parts
    notes: list


def number(word, line):
    """A real number, exactly."""
    if len(word) > LONGEST or not REAL.fullmatch(word):
        raise BadReals(f"expected a number, found {shown(word)}", line)
    return Fraction(word)


def read_reals(data, scale=Fraction(1), most=None):
    """The board of a text with real coordinates, in bytes: the first so many points, scaled, moved so that none is
    below 0, and rounded."""
    lines = [(at, line.strip()) for at, line in enumerate(lines_of(data.removeprefix(BOM)), 1)]
    rule, n, rest = read_head([(at, line) for at, line in lines if line])
    points = read_nodes(rest, n)
    kept = points[:most] if most is not None else points
    if not LEAST_POINTS <= len(kept) <= MOST_POINTS:
        raise BadReals(f"the board has {counted(len(kept), 'point')}, and {LEAST_POINTS} to {MOST_POINTS} are wanted; "
                       "--points takes the first so many")
    scaled = [(x * scale, y * scale) for x, y in kept]
    shift = tuple(max(0, -rounded(min(p[axis] for p in scaled))) for axis in (0, 1))
    moved = [(x + shift[0], y + shift[1]) for x, y in scaled]
    whole = [(rounded(x), rounded(y)) for x, y in moved]
    far = [i for i, p in enumerate(whole, 1) if max(p) > MAX_COORDINATE]
    if far:
        x, y = whole[far[0] - 1]
        raise BadReals(f"point {far[0]} comes to {x} {y}, above {MAX_COORDINATE:,}; a smaller --scale helps")
    return Board(Parts(rule, len(kept), whole, [], b""), told(len(points), kept, scale, shift, moved, whole))


def read_head(lines):
    """The rule and the number of points of the keyword lines, and the lines behind the section's name."""
    values = {}
    for place, (at, line) in enumerate(lines):
        keyword, colon, value = (part.strip() for part in line.partition(":"))
        if keyword == NODES:
            break
        if not colon:
            raise BadReals(f"expected a keyword with a colon or {NODES}, found {shown(line)}", at)
        values[keyword] = value, at
    else:
        raise BadReals(f"expected {NODES}; a board by weights needs no rounding")
    for keyword in ("DIMENSION", "EDGE_WEIGHT_TYPE"):
        if keyword not in values:
            raise BadReals(f"expected {keyword} above {NODES}")
    (kind, at), (count, line) = values["EDGE_WEIGHT_TYPE"], values["DIMENSION"]
    if kind not in NUMBERS:
        raise BadReals(f"expected {', '.join(NUMBERS)} as EDGE_WEIGHT_TYPE, found {shown(kind)}", at)
    if not (count.isascii() and count.isdigit() and len(count) <= 9):
        raise BadReals(f"expected a whole number as DIMENSION, found {shown(count)}", line)
    return NUMBERS[kind], int(count), lines[place + 1:]


def read_nodes(lines, n):
    """The coordinates of the node lines, as many as there are up to n."""
    points = []
    for at, line in lines:
        words = line.split()
        if len(points) == n or words[0] == "EOF":
            break
        if len(words) != 3 or words[0] != str(len(points) + 1):
            raise BadReals(f"expected node {len(points) + 1} of {n}, its number and two coordinates, found {shown(line)}", at)
        points.append((number(words[1], at), number(words[2], at)))
    if len(points) < n:
        raise BadReals(f"expected {counted(n, 'node')}, found {counted(len(points), 'node')}")
    return points


def rounded(value):
    """The nearest whole number, the higher of two."""
    return (2 * value + 1) // 2


def told(all_points, kept, scale, shift, moved, whole):
    """Sentences about what was done."""
    notes = []
    if len(kept) < all_points:
        notes.append(f"the first {counted(len(kept), 'point')} of {all_points:,}")
    if scale != 1:
        notes.append(f"coordinates times {decimal(scale)}, and so are lengths, before they are rounded")
    if any(shift):
        notes.append(f"moved by {shift[0]} and {shift[1]}, so that no coordinate is below 0")
    off = [(abs(a - b), i, a, b) for i, (p, q) in enumerate(zip(moved, whole), 1) for a, b in zip(p, q) if a != b]
    if not off:
        return [*notes, "no coordinate is rounded"]
    worst, point, real, rest = max(off)
    return [*notes, f"{counted(len(off), 'coordinate')} of {2 * len(kept):,} rounded, the most by {decimal(worst)}: "
                    f"{decimal(real)} of point {point} to {rest}; lengths change with them"]


def decimal(value):
    """A number in decimals, three of them at most."""
    return f"{float(value):.3f}".rstrip("0").rstrip(".")
