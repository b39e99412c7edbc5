"""Sheets as text, good and bad ones: what random records unpack to, with a few changes of letters, words and lines."""

import random

from revosti_command.parts import Beside, Parts, Record
from revosti_command.write import unpack, unpack_beside

WORDS = ["strike", "pair", "point", "split", "at", "crossing", "centres", "order", "from", "to", "c", "d", "rule", "points", "record",
    "unused", "bytes", "cut", "next", "first", "u",
         "v", ",", ":", "-", "#", "0", "1", "7", "65535", "65536", "4294967295", "4294967296", "99999999999", "007", "EUC_2D", "ATT",
         "GEO", "toString", "0a", "zz", "_", "é", "\x85", "\u2028", "\ufeff", "\U0001f600", "\t", "\r", "\x1c", " ", "  ", "\x7f",
         "\ufffd"]


def records(r):
    """Some records: most of them nested as the text form nests them."""
    found = []
    while len(found) < r.randrange(1, 12):
        found += r.choice([line, split, crossing, order])(r, len(found) + 1) if found else line(r, 1)
    return [odd(r, record, len(found)) if r.random() < 0.08 else record for record in found]


def line(r, number):
    """A line, with a case behind it or none."""
    return [Record(1, r.randrange(1, 10), r.randrange(1, 10), 0, 0, r.randrange(1, 10), r.choice([0, number + 1]),
        r.choice([0, number + 1]))]


def split(r, number):
    """A case with a split."""
    return [line(r, number)[0]._replace(kind=2)]


def crossing(r, number):
    """A case with a crossing."""
    return [Record(3, *(r.randrange(1, 10) for _ in range(6)), r.choice([0, number + 1]))]


def order(r, number):
    """A case with a new order of some points."""
    points = r.sample(range(1, 10), r.randrange(5))
    behind = [Record(5, a, 0, 0, 0, 0, 0, number + at + 1 if at < len(points) else 0) for at, a in enumerate(points, 1)]
    ends = [r.randrange(1, 10) for _ in range(4)]
    return [Record(4, *ends, 0, number + 1 if points else 0, r.choice([0, number + len(points) + 1])), *behind]


def odd(r, record, count):
    """A record with one number changed."""
    at = r.randrange(8)
    return Record(*(r.randrange(count + 2) if i == at else number for i, number in enumerate(record)))


def parts(r):
    """A board and records; now and then cut, or with bytes left over."""
    n = r.randrange(0, 7)
    points = [(r.randrange(100), r.randrange(2**32)) for _ in range(n)]
    if r.random() < 0.06:
        cut = r.randrange(n) if n else 0
        return Parts(1, n, points[:cut], [], r.randbytes(r.randrange(8))) if n else Parts(None, None, [], [], r.randbytes(r.randrange(8)))
    return Parts(r.choice([1, 1, 2, 3, 4, 5, 6, 2**32 - 1]), n, points, records(r),
        r.randbytes(r.randrange(16)) if r.random() < 0.1 else b"")


def changed(r, text):
    """The text with one change."""
    lines = text.split("\n")
    at = r.randrange(len(lines))
    line, way = lines[at], r.randrange(8)
    words = line.split(" ")
    if way == 0:
        lines[at] = " " * r.randrange(7) + line.lstrip(" ")
    elif way == 1:
        words[r.randrange(len(words))] = r.choice(WORDS)
        lines[at] = " ".join(words)
    elif way == 2:
        words.insert(r.randrange(len(words) + 1), r.choice(WORDS))
        lines[at] = " ".join(words)
    elif way == 3:
        del words[r.randrange(len(words))]
        lines[at] = " ".join(words)
    elif way == 4:
        lines.insert(r.randrange(len(lines) + 1), line)
    elif way == 5:
        del lines[at]
    elif way == 6:
        place = r.randrange(len(line) + 1)
        lines[at] = line[:place] + r.choice(WORDS) + line[place:]
    else:
        lines[at] = line + r.choice(["\r", "  # a comment", "# é \U0001f600", " ", "\r\r", ", next 3", ", first 2, next 0"])
    return "\n".join(lines)


def some(count, seed=1):
    """So many texts, each with whether it stands beside a board. A third of them are as unpack writes them."""
    r = random.Random(seed)
    for _ in range(count):
        whole, beside = parts(r), r.random() < 0.4
        text = unpack_beside(Beside(whole.n or 4, b"", whole.records, whole.tail)) if beside else unpack(whole)
        for _ in range(r.choice([0, 1, 1, 2, 4])):
            text = changed(r, text)
        yield text, beside
