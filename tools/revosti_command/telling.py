"""A line of a sheet told in words (02, Paper 6): the sentences that the library writes, each with its pair, and what it
names. Words are the library's; here a sentence's first letter and its numbers are read."""

import re
from itertools import combinations
from typing import NamedTuple

from revosti import Refusal, tell_line

from .fault import detail
from .lengths import sheet_of
from .parts import LINE
from .verdict import Verdict, lines_before
from .words import Complaint, counted

FIRST = 1  # the record of a sheet's first line
KINDS = {"S": "struck", "T": "third", "L": "loop", "E": "exchange", "M": "move", "C": "crossing", "F": "split", "N": "order"}
SAVING = ("exchange", "move", "crossing", "order")  # kinds whose last number, before pair and split point, is a saving
LAST = 3  # numbers that end a sentence: the pair and the split point


class Reason(NamedTuple):
    """Why a pair does not stand, or how its case is closed: the kind, the points that the sentence names before the
    pair, and the saving or None."""

    pair: tuple
    kind: str
    points: list
    saving: int | None
    sentence: str


class Telling(NamedTuple):
    """The verdict on a line, over the marks that the lines before it leave, and the reasons of an accepted one."""

    verdict: Verdict
    edge: tuple = ()
    split: int = 0
    reasons: list = []


def tell(parts, lengths, marks, number):
    """A line of a sheet over a set, which stays as it is; the lines before it are marked on a copy. Where one of these
    is refused, that is the verdict. A number that no line has is refused."""
    before = lines_before(lengths, marks, parts, number)
    if before.refusal:
        return Telling(before)
    try:
        told = tell_line(lengths.n, lengths.table, before.left, sheet_of(parts), number)
    except Refusal as refusal:
        refusal.detail = no_line(parts.records, number)
        if refusal.detail and refusal.number in (8, 10):
            raise
        return Telling(before._replace(refusal=refusal.number, record=refusal.record))
    line = parts.records[number - 1]
    others = [point for point in range(1, lengths.n + 1) if point != line.c]
    return Telling(before, (line.a, line.b), line.c, [read(*found) for found in zip(combinations(others, 2), told)])


def no_line(records, number):
    """Why a number is that of no line; None where it is one's."""
    if not 1 <= number <= len(records):
        return f"The sheet has {counted(len(records), 'record')}, and none is number {number}."
    kind = records[number - 1].kind
    return None if kind == LINE else f"Record {number} has kind {kind}; a line has kind {LINE}."


def read(pair, sentence):
    """The reason that a sentence tells."""
    kind, numbers = KINDS[sentence[0]], [int(digits) for digits in re.findall(r"\d+", sentence)][:-LAST]
    saving = numbers.pop() if kind in SAVING else None
    return Reason(pair, kind, numbers, saving, sentence)


def accepted(parts, telling):
    """The telling of a line that is accepted; else its refusal, with what is known of it."""
    verdict = telling.verdict
    if verdict.refusal:
        refusal = Refusal(verdict.refusal, verdict.record)
        refusal.detail = detail(parts, verdict).words
        raise refusal
    return telling


def only(telling, pair, option):
    """The reason of one pair, in either order, that an option names."""
    for reason in telling.reasons:
        if set(reason.pair) == set(pair):
            return reason
    raise Complaint(f"{option}: expected two points of the board beside the split point {telling.split}, found {pair[0]}-{pair[1]}")
