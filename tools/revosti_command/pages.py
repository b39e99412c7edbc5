"""The wall list of a board, and its lengths and marks again (01, The wall list).

A page is what the module `revosti` writes and reads; how many points a list is of, its size tells.
"""

from array import array

from revosti import LEAST_POINTS, LINE_BYTES, MOST_POINTS, PAGE_LINES, Refusal, fresh_marks, page_count, read_page, write_page

from .edges import edge_count, edges
from .phrases import say
from .words import counted


class BadPages(Exception):
    """A text that is no wall list: its size, or a line of one of its pages."""


def wall_list(lengths, marks):
    """All pages of a board with a set of marks."""
    return b"".join(write_page(lengths.n, lengths.table, marks, page) for page in range(1, page_count(lengths.n) + 1))


def read_list(text, n=None):
    """The number of points, the table and the packed set of a wall list, of n points where n is given."""
    n = points_of(text) if n is None else n
    every, marks, last = edges(n), fresh_marks(n), page_count(n)
    table, size = array("I", [0]) * len(every), PAGE_LINES * LINE_BYTES
    for page in range(1, last + 1):
        start = size * (page - 1)
        part = text[start:start + size] if page < last else text[start:]
        try:
            read_page(n, page, part, table, marks)
        except Refusal as error:
            on_page = every[PAGE_LINES * (page - 1):PAGE_LINES * page]
            raise BadPages(say("page_line", page=page, line=error.text_line, fault=fault(part, on_page, error.text_line))) from error
    return n, table, marks


def fault(page, on_page, line):
    """What is wrong with a line of a page that has these edges, in words."""
    if line > len(on_page):
        more = len(page) - LINE_BYTES * len(on_page)
        return say("page_end", lines=counted(len(on_page), "line"), bytes=counted(more, "byte"))
    (a, b), found = on_page[line - 1], page[LINE_BYTES * (line - 1):LINE_BYTES * line]
    shown = ascii(found.decode("latin-1")) if found else "the end"
    return say("page_edge", edge=f"{a}-{b}", found=shown)


def other_length(table, board, where):
    """The first line of a list whose length is not that of a board, in words, or None."""
    n = next(n for n in range(LEAST_POINTS, MOST_POINTS + 1) if edge_count(n) == len(table))
    if len(board) != len(table):
        return say("list_points", points=counted(n, "point"), where=where)
    for place, ((a, b), listed, length) in enumerate(zip(edges(n), table, board)):
        if listed != length:
            page, line = divmod(place, PAGE_LINES)
            return say("list_length", page=page + 1, line=line + 1, edge=f"{a}-{b}", listed=f"{listed:,}", length=f"{length:,}",
                where=where)
    return None


def points_of(text):
    """How many points a wall list is of: no two numbers of points have as many edges."""
    for n in range(LEAST_POINTS, MOST_POINTS + 1):
        if edge_count(n) * LINE_BYTES == len(text):
            return n
    raise BadPages(f"{say('page_size', bytes=counted(len(text), 'byte'))}; with --points the page and the line are told")
