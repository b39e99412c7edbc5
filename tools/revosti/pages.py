"""Edge pages (01, The wall list): the lengths and marks of a board as lines of text, page by page, written and read
again."""

from array import array
from collections.abc import MutableSequence

from .buffers import WORD, Buffer, copy, fit, lend, numbers
from .library import library
from .operations import Table, edges, lend_tables, refuse

PAGE_LINES, LINE_BYTES = 60, 25


def page_count(n: int) -> int:
    """How many pages a board has. An n that is refused has none."""
    return -(-edges(n) // PAGE_LINES)


def write_page(n: int, table: Table, marks: Buffer, page: int) -> bytes:
    """The text of a page, from 1: bytes, one line an edge."""
    text = bytearray(PAGE_LINES * LINE_BYTES)
    answer = library().revosti_write_page(fit("n", WORD, n), *lend_tables({"table": table}), *lend(copy(marks, "marks")),
                                          fit("page", WORD, page), *lend(text))
    refuse(answer)
    return bytes(text[:answer >> 16])


def read_page(n: int, page: int, text: Buffer, table: "array[int] | MutableSequence[int]", marks: bytearray) -> None:
    """Reads a page into `table`, the array or list handed in, and `marks`, the bytearray handed in: only its own edges
    change there. A text that is no such page is refused by 27, with `text_line`."""
    lengths = numbers("table", WORD, table)
    answer = library().revosti_read_page(fit("n", WORD, n), fit("page", WORD, page), *lend(copy(text, "text")), *lend(lengths),
                                         *lend(marks, "marks"))
    refuse(answer, text_line=answer >> 8)
    if lengths is not table:
        table[:] = lengths
