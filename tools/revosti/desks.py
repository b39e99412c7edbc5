"""Eight desks (01, Eight desks): sheets over one table, each desk with marks of its own, marked in turns of one line."""

from typing import NamedTuple

from .buffers import WORD, Buffer, copy, fit, lend, records, view, whole
from .library import library
from .operations import Sheet, Table, lend_tables, refuse
from .refusal import Refusal

DESKS = 8
DESKS_BYTES = 50  # 25 numbers of 16 bits, little-endian: the last desk served, and three of each desk


class Turn(NamedTuple):
    """What a turn tells: the desk that was served, whether it has a line left, and its verdict so far: refusal number
    or 0, record or 0, and lines accepted. While a line is left, refusal and record are 0."""

    desk: int
    line_left: bool
    refusal: int
    record: int
    lines: int

    @property
    def slip(self) -> int:
        """The answer of marking so far, which is a slip that is not released."""
        return self.refusal | self.record << 8 | self.lines << 24


class Desk(NamedTuple):
    """What the state holds of a desk: the index of the line that waits, the record that has this index (0 for the first
    line), and the lines accepted. All are 0 where its sheet has ended, and before it handed one in."""

    index: int
    owner: int
    lines: int

    @property
    def line_left(self) -> bool:
        """Whether the desk has a line left."""
        return self.lines < self.index


def open_desks() -> bytearray:
    """The state of eight desks, none of which has a line left or was served."""
    desks = bytearray(DESKS_BYTES)
    refuse(library().revosti_open_desks(*lend(desks, "desks")))
    return desks


def hand_in(desks: bytearray, desk: int, n: int, table: Table, marks: Buffer, sheet: Sheet) -> None:
    """Hands in a sheet at a desk, 1 to 8: it is tested, and its first line waits, in `desks`, the bytearray handed in.
    Table, marks and sheet are not kept. Refused by 28 and 29 before all tests of the sheet."""
    refuse(library().revosti_hand_in(*lend(desks, "desks"), fit("desk", WORD, desk), fit("n", WORD, n), *lend_tables({"table": table}),
                                     *lend(copy(marks, "marks")), *lend(records(sheet))))


def next_desk(desks: Buffer) -> int | None:
    """The desk that the next turn serves, and whose table, marks and sheet it is lent. None where no desk has a line
    left."""
    answer = library().revosti_next_desk(*lend(copy(desks, "desks")))
    refuse(answer)
    return answer >> 16 or None


def turn(desks: bytearray, n: int, table: Table, marks: bytearray, sheet: Sheet) -> Turn | None:
    """Marks one line of the desk that `next_desk` tells, in `marks` and `desks`, the bytearrays handed in. A refusal of
    the sheet ends it; it is told and not raised. None where no desk has a line left."""
    answer = library().revosti_turn(*lend(desks, "desks"), fit("n", WORD, n), *lend_tables({"table": table}), *lend(marks, "marks"),
                                    *lend(records(sheet)))
    desk = answer >> 48 & 0xff
    if not desk:
        refuse(answer)
        return None
    return Turn(desk, bool(answer >> 56 & 1), answer & 0xff, answer >> 8 & 0xffff, answer >> 24 & 0xffff)


def last_served(desks: Buffer) -> int:
    """The desk that was served last, 0 before the first turn. Where only handing in and turns alter the state, it is 0
    to 8."""
    return number_at(desks, 0)


def desk_of(desks: Buffer, desk: int) -> Desk:
    """What the state holds of a desk. It is refused by 22 and 28, as handing in is."""
    last_served(desks)
    if not 1 <= whole("desk", desk) <= DESKS:
        raise Refusal(28)
    return Desk(*(number_at(desks, 3 * desk - 2 + place) for place in range(3)))


def number_at(desks: Buffer, place: int) -> int:
    """A number of the state, from 0 on."""
    seen = view("desks", desks)
    if len(seen) < DESKS_BYTES:
        raise Refusal(22)
    return seen[2 * place] | seen[2 * place + 1] << 8
