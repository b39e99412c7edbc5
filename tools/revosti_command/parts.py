"""The binary input of `mark`, taken apart and put together (01, Layers and program).

`join(split(data)) == data` for every byte string.
"""

import struct
from typing import NamedTuple

HEADER = struct.Struct("<II")
POINT = struct.Struct("<II")
RECORD = struct.Struct("<8H")

MAX_32 = 2**32 - 1
MAX_16 = 2**16 - 1

MAX_COORDINATE = 1_000_000
MAX_RECORDS = 4_000
MAX_FILE = 65_448

LINE, SPLIT, CROSSING, STRETCH, STRETCH_POINT = 1, 2, 3, 4, 5  # kinds
POINTS_OF = {LINE: "abc", SPLIT: "abc", CROSSING: "abuvcd", STRETCH: "abuv", STRETCH_POINT: "a"}  # fields that are points, by kind
ZERO_IN = {LINE: "uv", SPLIT: "uv", CROSSING: "", STRETCH: "c", STRETCH_POINT: "buvcd"}  # fields that are 0, by kind


class Record(NamedTuple):
    """One record: eight 16-bit numbers, in the order of the file."""

    kind: int
    a: int
    b: int
    u: int
    v: int
    c: int
    d: int
    next: int


class Parts(NamedTuple):
    """The pieces of a file. Without a whole header, `rule` and `n` are None
    and all bytes are in `tail`. If the coordinates are cut there are fewer
    than n points, no records, and `tail` has the bytes after the last whole
    point. Otherwise `tail` has the bytes after the last whole record."""

    rule: int | None
    n: int | None
    points: list
    records: list
    tail: bytes

    @property
    def cut(self):
        """Whether the file ends inside the coordinates."""
        return self.n is not None and len(self.points) < self.n


class Beside(NamedTuple):
    """A board in a TSPLIB text, by coordinates or weights, and the pieces of a
    sheet beside it."""

    n: int
    text: bytes
    records: list
    tail: bytes


def split(data):
    """The pieces of a byte string."""
    if len(data) < HEADER.size:
        return Parts(None, None, [], [], data)
    rule, n = HEADER.unpack_from(data)
    body = data[HEADER.size:]
    whole = min(n, len(body) // POINT.size)
    points, rest = take(POINT, body, whole)
    records, tail = take(RECORD, rest, len(rest) // RECORD.size)  # none if cut: under 8 bytes
    return Parts(rule, n, points, [Record(*r) for r in records], tail)


def take(form, data, count):
    """The first `count` items of a form, and the bytes after them."""
    end = count * form.size
    return list(form.iter_unpack(data[:end])), data[end:]


def join(parts):
    """The byte string with these pieces."""
    if parts.rule is None:
        return parts.tail
    return b"".join(
        [HEADER.pack(parts.rule, parts.n)]
        + [POINT.pack(*p) for p in parts.points]
        + [RECORD.pack(*r) for r in parts.records]
        + [parts.tail]
    )
