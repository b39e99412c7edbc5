"""Reasons in words (02, Paper 6): a sentence for each pair at the split of a line."""

from .buffers import WORD, Buffer, copy, fit, lend, records
from .library import library
from .operations import Sheet, Table, edges, lend_tables, refuse

SENTENCE_BYTES = 128  # the most that a sentence has, its newline among them


def tell_line(n: int, table: Table, marks: Buffer, sheet: Sheet, record: int) -> list[str]:
    """The sentences of the line with this record number, in pair order: why each pair at its split does not stand, or
    how its case is closed. The marks are those from before the line; a pending edge counts as struck. A line that
    marking would refuse is refused so, with its `record`; a number that no record has is refused by 8."""
    text = bytearray(told_size(n))
    answer = library().revosti_tell_line(fit("n", WORD, n), *lend_tables({"table": table}), *lend(copy(marks, "marks")),
                                         *lend(records(sheet)), fit("record", WORD, record), *lend(text))
    refuse(answer, record=answer >> 8 & 0xffff)
    return text[:answer >> 16].decode("ascii").splitlines()


def told_size(n: int) -> int:
    """How many bytes hold the sentences of every line. An n that is refused has none."""
    return SENTENCE_BYTES * (edges(n) - (n - 1)) if edges(n) else 0
