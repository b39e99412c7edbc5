"""The operations (01, Each operation and its refusals): Python's numbers to bytes, a call, and back."""

from array import array
from collections.abc import Callable, Iterable
from typing import Any, NamedTuple, TypeAlias

from .buffers import HALF, WORD, Buffer, coordinate_words, copy, fit, lend, numbers, records, view, whole
from .library import library
from .refusal import Refusal

LEAST_POINTS, MOST_POINTS = 4, 180
STRUCK, OPEN, PENDING = 0, 1, 2

Table: TypeAlias = "array[int] | Iterable[int]"  # an array of typecode "I" is lent as it is, others are copied
Sheet: TypeAlias = Iterable[Iterable[int]]
Function: TypeAlias = Callable[..., int]


class Tour(NamedTuple):
    """What the check of a tour answers: its length, and whether all its edges are open."""

    length: int
    open: bool


class Instance(NamedTuple):
    """What a TSPLIB text says: the number of points, and the table."""

    n: int
    table: "array[int]"


def measure(n: int, rule: int, coordinates: Iterable[int] | Iterable[Iterable[int]]) -> "array[int]":
    """The table of a board by rule 1 (EUC_2D), 2 (CEIL_2D), 3 (ATT), 4 (MAN_2D) or 5 (MAX_2D). Coordinates are pairs,
    or 2n numbers."""
    table = new_table(n)
    refuse(library().revosti_measure(fit("n", WORD, n), fit("rule", WORD, rule), *lend(coordinate_words(coordinates)), *lend(table)))
    return table


def read_tsplib(text: Buffer) -> Instance:
    """n and the table of a TSPLIB text, which is bytes: as `measure` makes it of the coordinates, or the weights. A
    text that is none is refused by 19, with `text_line`."""
    table = new_table(tsplib_points(text))
    answer = library().revosti_read_tsplib(*lend(copy(text, "text")), *lend(table))
    refuse(answer)
    return Instance(answer >> 16, table)


def tsplib_points(text: Buffer) -> int:
    """The n of a TSPLIB text, which is bytes. It may be one that every operation refuses."""
    answer = library().revosti_tsplib_points(*lend(copy(text, "text")))
    refuse(answer, text_line=answer >> 8)
    return answer >> 16


def fresh_marks(n: int) -> bytearray:
    """New marks, all open."""
    marks = bytearray(marks_size(n))
    refuse(library().revosti_fresh_marks(fit("n", WORD, n), *lend(marks, "marks")))
    return marks


def pack_marks(n: int, byte_set: Buffer) -> bytearray:
    """The packed set with the marks of a byte set."""
    packed = bytearray(marks_size(n))
    refuse(library().revosti_pack_marks(fit("n", WORD, n), *lend(copy(byte_set, "byte_set")), *lend(packed)))
    return packed


def unpack_marks(n: int, marks: Buffer) -> bytearray:
    """The byte set with the marks of a packed set."""
    byte_set = bytearray(edges(n))
    refuse(library().revosti_unpack_marks(fit("n", WORD, n), *lend(copy(marks, "marks")), *lend(byte_set)))
    return byte_set


def mark_sheet(n: int, table: Table, marks: bytearray, sheet: Sheet) -> int:
    """The number of lines accepted, where all are. It strikes their edges in `marks`, the bytearray handed in."""
    return accepted(library().revosti_mark_sheet, n, {"table": table}, marks, sheet)


def ask_sheet(n: int, table: Table, marks: bytearray, sheet: Sheet) -> int:
    """As `mark_sheet`, but the edges get PENDING, until `confirm` or `withdraw`."""
    return accepted(library().revosti_ask_sheet, n, {"table": table}, marks, sheet)


def mark_between(n: int, low: Table, high: Table, marks: bytearray, sheet: Sheet) -> int:
    """As `mark_sheet`, over two tables: what a rule takes out counts low, what it puts in counts high."""
    return accepted(library().revosti_mark_between, n, {"low": low, "high": high}, marks, sheet)


def confirm(n: int, marks: bytearray) -> None:
    """Strikes every pending edge in `marks`, the bytearray handed in."""
    refuse(library().revosti_confirm(fit("n", WORD, n), *lend(marks, "marks")))


def withdraw(n: int, marks: bytearray) -> None:
    """Opens every pending edge again in `marks`, the bytearray handed in."""
    refuse(library().revosti_withdraw(fit("n", WORD, n), *lend(marks, "marks")))


def list_pairs(n: int, table: Table, marks: Buffer, a: int, b: int, c: int) -> list[tuple[int, int]]:
    """The pairs (x, y) that stand at the split point c under the edge ab, rising. A pending edge counts as open."""
    return listed(library().revosti_list_pairs, n, {"table": table}, marks, a, b, c)


def list_between(n: int, low: Table, high: Table, marks: Buffer, a: int, b: int, c: int) -> list[tuple[int, int]]:
    """As `list_pairs`, over two tables: what a rule takes out counts low, what it puts in counts high."""
    return listed(library().revosti_list_between, n, {"low": low, "high": high}, marks, a, b, c)


def check_tour(n: int, table: Table, marks: Buffer, tour: Iterable[int]) -> Tour:
    """The length of a tour, and whether all its edges are open. A pending edge counts as open."""
    answer = library().revosti_check_tour(fit("n", WORD, n), *lend_tables({"table": table}), *lend(copy(marks, "marks")),
                                          *lend(numbers("tour", HALF, tour)))
    refuse(answer)
    return Tour(answer >> 16, bool(answer >> 8 & 1))


def exchange_saving(n: int, table: Table, p: int, q: int, x: int, y: int) -> int:
    """What exchanging the edges pq and xy saves. It is above 0 exactly when they are not compatible."""
    return saving(library().revosti_exchange_saving, n, table, p=p, q=q, x=x, y=y)


def move_saving(n: int, table: Table, c: int, x: int, y: int, u: int, v: int) -> int:
    """What moving the point c from between x and y to between u and v saves. Above 0, condition 5 fails where cx, cy
    and uv lie in K with the pair."""
    return saving(library().revosti_move_saving, n, table, c=c, x=x, y=y, u=u, v=v)


def crossing_saving(n: int, table: Table, p: int, q: int, r: int, s: int, x: int, y: int, z: int, w: int) -> int:
    """What the crossing of pq with the centres r and s saves, by its best labelling; x and y are the other ends of r, z
    and w those of s. It is above 0 exactly when the crossing settles its case."""
    return saving(library().revosti_crossing_saving, n, table, p=p, q=q, r=r, s=s, x=x, y=y, z=z, w=w)


def place(n: int, a: int, b: int) -> int:
    """The place of the edge ab, in either order, in edge order (01, Points, lengths, marks). It is refused by 1 for
    such an n, and by 11 where a or b is outside 1 to n or a = b."""
    if edges(n) == 0:
        raise Refusal(1)
    low, high = sorted((whole("a", a), whole("b", b)))
    if not 1 <= low < high <= n:
        raise Refusal(11)
    return (low - 1) * (2 * n - low) // 2 + high - low - 1


def marks_size(n: int) -> int:
    """How many bytes a packed set has. An n that is refused has none."""
    return (edges(n) + 3) // 4


def mark_of(n: int, marks: Buffer, a: int, b: int) -> int:
    """The mark of the edge ab, in either order, in a packed set. It is refused by 1 and 11 as `place` is, and by 6
    where the set has not its size. No test is made whether marks are 3."""
    byte, rank = divmod(place(n, a, b), 4)
    seen = view("marks", marks)
    if len(seen) != marks_size(n):
        raise Refusal(6)
    return seen[byte] >> 2 * rank & 3


def marked(function: Function, n: int, tables: dict[str, Table], marks: bytearray, sheet: Sheet) -> int:
    """What a function answers on a sheet, refused or not."""
    return function(fit("n", WORD, n), *lend_tables(tables), *lend(marks, "marks"), *lend(records(sheet)))


def accepted(function: Function, n: int, tables: dict[str, Table], marks: bytearray, sheet: Sheet) -> int:
    """The number of lines that a function accepts, where it accepts all."""
    answer = marked(function, n, tables, marks, sheet)
    lines = answer >> 24
    refuse(answer, record=answer >> 8 & 0xffff, lines=lines)
    return lines


def listed(function: Function, n: int, tables: dict[str, Table], marks: Buffer, a: int, b: int, c: int) -> list[tuple[int, int]]:
    """The pairs that a function lists."""
    found = array(HALF, [0]) * (2 * edges(n))  # a pair is an edge, too
    answer = function(fit("n", WORD, n), *lend_tables(tables), *lend(copy(marks, "marks")), fit("a", HALF, a), fit("b", HALF, b),
                      fit("c", HALF, c), *lend(found))
    refuse(answer)
    points = found[:2 * (answer >> 16)].tolist()
    return list(zip(points[::2], points[1::2]))


def saving(function: Function, n: int, table: Table, **points: int) -> int:
    """The saving that a function answers for these points."""
    answer = function(fit("n", WORD, n), *lend_tables({"table": table}), *(fit(name, HALF, point) for name, point in points.items()))
    refuse(answer)
    return answer >> 16  # exact below 0, too


def edges(n: int) -> int:
    """How many edges a board has. An n that is refused has none: nothing is made for it."""
    return n * (n - 1) // 2 if LEAST_POINTS <= whole("n", n) <= MOST_POINTS else 0


def new_table(n: int) -> "array[int]":
    """A table to be written."""
    return array(WORD, [0]) * edges(n)


def refuse(answer: int, **found: int) -> None:
    """Raises the refusal that an answer has in its lowest byte, with what the answer says of its place."""
    if answer & 0xff:
        raise Refusal(answer & 0xff, **found)


def lend_tables(tables: dict[str, Table]) -> Iterable[Any]:
    """Tables as C takes them, one after the other."""
    for name, table in tables.items():
        yield from lend(numbers(name, WORD, table))
