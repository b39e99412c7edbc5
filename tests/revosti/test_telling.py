"""Reasons in words over the library: every line of many small boards against sentences made here by the plain rules, each refusal with its
record, and what is left of the buffer."""

import random
import unittest
from array import array
from itertools import combinations
from test_stretches import DAMAGED, damaged
from test_stretches import N as SIX
from test_stretches import TABLE as SIX_TABLE

from tests.support import ROOT
from tests.support.packing import packed
from tests.support.plain import Board, degree, edge, ends
from tests.support.square import LINES, N, TABLE

import revosti
from revosti.library import library
from revosti.operations import lend
from revosti_command.parts import split

SQUARE = ["Loop 1-2-3 shuts out 1 and 3 as neighbours of 2.",
          "Exchanging 2-4 and 1-3 saves 8 and shuts out 1 and 4 as neighbours of 2.",
          "Exchanging 2-4 and 1-3 saves 8 and shuts out 3 and 4 as neighbours of 2."]
LARGE = split((ROOT / "examples/board-180.sheet").read_bytes())
KINDS = {"Struck", "Third", "Loop", "Exchanging", "Moving", "Further"}  # what a line's text can have


def exchange(board, e, f):
    """What exchanging two edges saves."""
    (p, q), (x, y), l = e, f, board.length
    return l(p, q) + l(x, y) - max(l(p, x) + l(q, y), l(p, y) + l(q, x))


def move(board, k, w, e):
    """What moving a point to between the ends of an edge saves."""
    (s, t), (u, v), l = ends(k, w), e, board.length
    return l(u, v) + l(s, w) + l(t, w) - l(s, t) - l(u, w) - l(v, w)


def reason(board, ab, c, pair):
    """Why a pair does not stand, as a sentence begins, or None."""
    legs = sorted(edge(c, x) for x in pair)
    k = {ab, *legs}
    points = sorted({p for e in k for p in e})
    tests = [(e in board.struck, f"Struck edge {e[0]}-{e[1]}") for e in legs]
    tests += [(degree(k, p) > 2, f"Third edge at {p}") for p in points]
    tests += [(len(k) == len(points) == 3, f"Loop {'-'.join(map(str, points))}")]
    exchanged = [(exchange(board, e, ab), e) for e in legs]
    tests += [(saved > 0, f"Exchanging {e[0]}-{e[1]} and {ab[0]}-{ab[1]} saves {saved} and") for saved, e in exchanged]
    moved = [(move(board, k, w, e), w, e) for w in points if degree(k, w) == 2 for e in sorted(k) if w not in e]
    tests += [(saved > 0, f"Moving {w} between {u} and {v} saves {saved} and") for saved, w, (u, v) in moved]
    return next((words for failed, words in tests if failed), None)


def closing(board, ab, c, pair):
    """A point at which no pair stands once a pair is in K, or None."""
    k = {ab, *(edge(c, x) for x in pair)}
    return next((p for p in range(1, board.n + 1) if not board.standing(k, p)), None)


def argument(board, ab, c):
    """The records of a line whose cases are splits without cases, and its sentences; None where a case wants more."""
    pairs = list(combinations([p for p in range(1, board.n + 1) if p != c], 2))
    found = [(pair, reason(board, ab, c, pair)) for pair in pairs]
    splits = {pair: closing(board, ab, c, pair) for pair, words in found if words is None}
    if None in splits.values():
        return None
    cases = [[2, *pair, 0, 0, point, 0, place] for place, (pair, point) in enumerate(splits.items(), 3)]
    records = [[1, *ab, 0, 0, c, 2 if cases else 0, 0], *cases]
    records[-1][7] = 0
    told = [f"{words} shuts out" if words else f"Further split at {splits[pair]} settles" for pair, words in found]
    return records, [f"{words} {x} and {y} as neighbours of {c}." for words, (x, y) in zip(told, pairs)]


def board_of(n, seed):
    """A small board with many ties, some edges struck and some pending: the board that counts both as struck, and its marks."""
    r = random.Random(1000 * n + seed)
    points = [(r.randrange(9), r.randrange(9)) for _ in range(n)]
    marks = [r.choice((1, 1, 1, 1, 1, 1, 0, 2)) if seed % 3 else 1 for _ in range(n * (n - 1) // 2)]
    every = list(combinations(range(1, n + 1), 2))
    return Board(1 + seed % 5, points, [e for e, mark in zip(every, marks) if mark != 1]), packed(marks)


def settled(records, line):
    """The sentences of the cases of a line."""
    index = line.d
    while index:
        case = records[index - 1]
        yield f"Further split at {case.c} settles {case.a} and {case.b} as neighbours of {line.c}."
        index = case.next


def alone(records, record):
    """A line of a sheet and its cases as a sheet."""
    last = records[record - 1].next - 1
    less = [[*r[:6], r[6] - record + 1 if r[6] and r[0] != 3 else r[6], r[7] - record + 1 if r[7] else 0] for r in records[record - 1:last]]
    return [[*less[0][:7], 0], *less[1:]]


def ask(n, table, marks, sheet, record, text):
    """What the function answers; the text is written in place."""
    return library().revosti_tell_line(n, *lend(array("I", table)), *lend(bytearray(marks)),
                                       *lend(array("H", [number for line in sheet for number in line])), record, *lend(text))


class Told(unittest.TestCase):
    def test_square(self):
        marks = revosti.fresh_marks(N)
        self.assertEqual(revosti.tell_line(N, TABLE, marks, LINES, 1), SQUARE)
        self.assertEqual(marks, revosti.fresh_marks(N))

    def test_the_plain_rules(self):
        kinds, lines = set(), 0
        for n, seed in ((n, seed) for n in (4, 5, 6) for seed in range(10)):
            board, marks = board_of(n, seed)
            table = revosti.measure(n, board.rule, board.points)
            for ab, c in ((ab, c) for ab in combinations(range(1, n + 1), 2) if ab not in board.struck for c in range(1, n + 1)):
                found = argument(board, ab, c)
                if found is None:
                    continue
                self.assertEqual(revosti.tell_line(n, table, marks, found[0], 1), found[1], (n, seed, ab, c))
                lines += 1
                kinds |= {words.split()[0] for words in found[1]}
        self.assertEqual(kinds, KINDS)
        self.assertGreater(lines, 200)

    def test_a_pending_edge_is_struck(self):
        table = revosti.measure(5, 1, [(0, 0), (10, 0), (10, 10), (0, 10), (0, 5)])
        every, sheet = list(combinations(range(1, 6), 2)), [[1, 1, 3, 0, 0, 2, 0, 0]]
        for mark in (0, 2):
            marks = packed([mark if e == (2, 4) else 1 for e in every])
            before = bytes(marks)
            self.assertIn("Struck edge 2-4 shuts out 1 and 4 as neighbours of 2.", revosti.tell_line(5, table, marks, sheet, 1))
            self.assertEqual(marks, before)
            marks = packed([mark if e == (1, 3) else 1 for e in every])
            with self.assertRaises(revosti.Refusal) as caught:
                revosti.tell_line(5, table, marks, sheet, 1)
            self.assertEqual((caught.exception.number, caught.exception.record), (12, 1))

    def test_180_points(self):
        """The first line has no case: a sentence for each pair, in pair order."""
        told = revosti.tell_line(180, self.table(), revosti.fresh_marks(180), LARGE.records, 1)
        c = LARGE.records[0].c
        pairs = combinations([p for p in range(1, 181) if p != c], 2)
        self.assertEqual([line.partition(" shuts out ")[2] for line in told], [f"{x} and {y} as neighbours of {c}." for x, y in pairs])
        self.assertLess(max(map(len, told)), 128)

    def table(self):
        """The lengths of the large board."""
        return revosti.measure(180, LARGE.rule, LARGE.points)

    def test_lines_of_a_sheet(self):
        """Each case of a line is told with its split, over the marks that the lines before it leave."""
        table, marks, record = self.table(), revosti.fresh_marks(180), 1
        for _ in range(4):
            line = LARGE.records[record - 1]
            told = revosti.tell_line(180, table, marks, LARGE.records, record)
            self.assertEqual([words for words in told if words.startswith("Further")], list(settled(LARGE.records, line)))
            revosti.mark_sheet(180, table, marks, alone(LARGE.records, record))
            record = line.next


class Buffers(unittest.TestCase):
    SIZE = sum(len(line) + 1 for line in SQUARE)

    def test_bytes_past_the_text_stay(self):
        for more in (0, 1, 60):
            text = bytearray(b"\xff" * (self.SIZE + more))
            self.assertEqual(ask(N, TABLE, revosti.fresh_marks(N), LINES, 1, text), 65536 * self.SIZE)
            self.assertEqual(bytes(text), "".join(f"{line}\n" for line in SQUARE).encode() + b"\xff" * more)

    def test_one_byte_too_few(self):
        for size in (0, 1, 49, self.SIZE - 1):
            text = bytearray(b"\xff" * size)
            self.assertEqual(ask(N, TABLE, revosti.fresh_marks(N), LINES, 1, text), 22)
            self.assertEqual(bytes(text), b"\xff" * size)


class Refused(unittest.TestCase):
    def told(self, n, table, marks, sheet, record):
        """Number and record of a refusal that leaves the text alone; it comes before 22, and Python has it, too."""
        text, none = bytearray(b"\xff" * 800), bytearray()
        answer = ask(n, table, marks, sheet, record, text)
        self.assertEqual((ask(n, table, marks, sheet, record, none), bytes(text)), (answer, b"\xff" * 800))
        with self.assertRaises(revosti.Refusal) as caught:
            revosti.tell_line(n, table, marks, sheet, record)
        found = caught.exception
        self.assertEqual((found.number + 256 * found.record, found.lines, found.text_line), (answer, 0, 0))
        return found.number, found.record

    def test_in_order(self):
        long, wrong, good, bad, none = [2_000_001, *TABLE[1:]], packed([3] * 6), packed([1] * 6), [[9] * 8], []
        for number, n, table, marks, sheet, record in (
                (1, 3, none, wrong, none, 0), (1, 181, none, wrong, none, 0), (2, N, TABLE[:-1], wrong, none, 0),
                (5, N, long, wrong, none, 0), (6, N, TABLE, wrong, none, 0), (6, N, TABLE, bytes(3), none, 0),
                (7, N, TABLE, good, none, 0), (7, N, TABLE, good, bad * 4001, 0), (8, N, TABLE, good, bad, 0)):
            self.assertEqual(self.told(n, table, marks, sheet, record), (number, 0))

    def test_numbers_of_no_record(self):
        for record in (0, 3, 4, 4000, 65536, 65537, 2**31, 2**32 - 1):
            self.assertEqual(self.told(N, TABLE, revosti.fresh_marks(N), LINES, record), (8, 0))

    def test_the_line(self):
        """What marking the line alone says, whatever stands before it and behind its next index."""
        for number, record, changes in DAMAGED:
            sheet, marks = damaged(changes), revosti.fresh_marks(SIX)
            for index in (0, 1, 9, 65535):
                line = [[*sheet[0][:7], index], *sheet[1:]]
                self.assertEqual(self.told(SIX, SIX_TABLE, marks, line, 1), (number, record), changes)
            for before in (1, 299):
                moved = [[9] * 8] * before + [shifted(r, before) for r in sheet]
                self.assertEqual(self.told(SIX, SIX_TABLE, marks, moved, 1 + before), (number, record + before), changes)

    def test_the_line_is_no_line(self):
        for record in (2, 3, 4):
            self.assertEqual(self.told(SIX, SIX_TABLE, revosti.fresh_marks(SIX), damaged([]), record), (10, record))

    def test_a_next_index_is_not_read(self):
        for index in (0, 1, 2, 65535):
            self.assertEqual(revosti.tell_line(N, TABLE, revosti.fresh_marks(N), [[*LINES[0][:7], index]], 1), SQUARE)


def shifted(record, by):
    """A record of a sheet that begins later: the indexes in it that are small enough to lead somewhere in six records."""
    kind, a, b, u, v, c, d, index = record
    first = d + by if d and kind in (1, 2, 4) else d
    return [kind, a, b, u, v, c, first, index + by if index else 0]
