"""Slips over the library: those of sheets, every kind of number, a plain reading of both views, and 22."""

import random
import unittest
from struct import pack

from tests.support import ROOT
from tests.support.packing import packed
from tests.support.square import LINES, N, TABLE

import revosti
from revosti.library import library
from revosti.operations import lend

STOPS = [[1, 1, 3, 0, 0, 2, 0, 2], [1, 1, 2, 0, 0, 3, 0, 0]]  # its second line is refused by 14
RELEASED, ABOVE = 1 << 40, 1 << 41
RULES = (ROOT / "docs/RULES.md").read_text(encoding="utf-8")


def number(refusal, record, lines, released=False, above=0):
    """The slip with these values."""
    return refusal | record << 8 | lines << 24 | released << 40 | above << 41


def plain(refusal, record, lines, released):
    """What the examiner and the candidate see, from the words of the paper."""
    examiner = pack("<BBHH", refusal, released, record, lines)
    return examiner, examiner if released else pack("<BBHH", 255 if refusal else 0, 0, 0, lines)


def some(r):
    """The values of a slip, often small or largest ones."""
    return (r.choice((0, 0, 1, 7, 14, 22, 128, 255, r.randrange(256))), *(r.choice((0, 1, 255, 256, 4000, 65535, r.randrange(65536)))
                                                                        for _ in range(2)), r.random() < 0.4)


class Sheets(unittest.TestCase):
    def slip(self, sheet, n=N, marks=None):
        """The slip of a sheet on the square, and the marks that are left."""
        marks = revosti.fresh_marks(N) if marks is None else marks
        return revosti.new_slip(n, TABLE, marks, sheet), bytes(marks)

    def test_accepted(self):
        slip, marks = self.slip(LINES)
        self.assertEqual((slip, marks), (2 << 24, packed([1, 0, 1, 1, 0, 1])))
        self.assertEqual((revosti.examiner_view(slip), revosti.candidate_view(slip)), (bytes((0, 0, 0, 0, 2, 0)),) * 2)

    def test_stopped(self):
        slip, marks = self.slip(STOPS)
        self.assertEqual((slip, marks), (number(14, 2, 1), packed([1, 0, 1, 1, 1, 1])))
        self.assertEqual(revosti.examiner_view(slip), bytes((14, 0, 2, 0, 1, 0)))
        self.assertEqual(revosti.candidate_view(slip), bytes((255, 0, 0, 0, 1, 0)))

    def test_rules_page(self):
        stopped, accepted = self.slip(STOPS)[0], self.slip(LINES)[0]
        seen = [" ".join(map(str, view)) for view in (revosti.examiner_view(stopped), revosti.candidate_view(stopped),
                                                      revosti.candidate_view(revosti.release(stopped)), revosti.examiner_view(accepted))]
        section = " ".join(RULES.partition("\n## Slips\n")[2].partition("\n## ")[0].split())
        self.assertIn(f"The examiner sees {seen[0]}, the candidate {seen[1]}, and after release both see {seen[2]}.", section)
        self.assertIn(f"both see {seen[3]}.", section)
        self.assertTrue(f"| of the first answer above: {revosti.release(accepted):,} |\n" in RULES)
        self.assertTrue(f"| of the first answer above: 0, and the bytes {seen[3]} |\n" in RULES)

    def test_refused_before_a_record(self):
        for sheet, n, refusal in (([], N, 7), (LINES, 3, 1), (LINES, 181, 1), (LINES, 5, 2)):
            self.assertEqual(self.slip(sheet, n)[0], refusal)
        self.assertEqual(self.slip(LINES, marks=bytearray(packed([1, 2, 1, 1, 1, 1])))[0], 20)

    def test_it_is_what_marking_answers(self):
        for sheet in (LINES, STOPS, LINES[:1], []):
            slip, marks = self.slip(sheet)
            left = revosti.fresh_marks(N)
            try:
                found = number(0, 0, revosti.mark_sheet(N, TABLE, left, sheet))
            except revosti.Refusal as refusal:
                found = number(refusal.number, refusal.record, refusal.lines)
            self.assertEqual((slip, marks), (found, bytes(left)))


class Views(unittest.TestCase):
    def test_against_a_plain_reading(self):
        r, seen = random.Random(1), set()
        for _ in range(4000):
            values = some(r)
            slip = number(*values, above=r.choice((0, 1, 2**23 - 1, r.randrange(2**23))))
            self.assertEqual((revosti.examiner_view(slip), revosti.candidate_view(slip)), plain(*values), slip)
            seen.add((bool(values[0]), values[3]))
        self.assertEqual(len(seen), 4)

    def test_release(self):
        r = random.Random(2)
        for _ in range(4000):
            slip = number(*some(r), above=r.randrange(2**23))
            self.assertEqual(revosti.release(slip), slip | RELEASED)
            self.assertEqual(revosti.release(revosti.release(slip)), slip | RELEASED)
            self.assertEqual(revosti.examiner_view(slip | RELEASED), revosti.candidate_view(slip | RELEASED))
        for slip in (0, RELEASED, ABOVE, 2**64 - 1, 2**64 - 1 - RELEASED):
            self.assertEqual(revosti.release(slip), slip | RELEASED)

    def test_what_two_slips_tell(self):
        r, alike = random.Random(3), set()
        for _ in range(4000):
            one, two = some(r), some(r)
            first, second = number(*one), number(*two)
            self.assertEqual(revosti.examiner_view(first) == revosti.examiner_view(second), first == second)
            if not one[3] and not two[3]:
                same = (one[2], bool(one[0])) == (two[2], bool(two[0]))
                self.assertEqual(revosti.candidate_view(first) == revosti.candidate_view(second), same)
                alike.add(same)
        self.assertEqual(alike, {True, False})

    def test_sizes(self):
        for call in (library().revosti_examiner_view, library().revosti_candidate_view):
            for size in range(12):
                view = bytearray(b"\x5a" * size)
                answer = call(number(14, 4000, 7), *lend(view))
                wrote = revosti.examiner_view if call is library().revosti_examiner_view else revosti.candidate_view
                wanted = (22, b"\x5a" * size) if size < 6 else (0, wrote(number(14, 4000, 7)) + b"\x5a" * (size - 6))
                self.assertEqual((answer, bytes(view)), wanted)

    def test_numbers_that_do_not_fit(self):
        for call in (revosti.release, revosti.examiner_view, revosti.candidate_view):
            for slip in (-1, 2**64):
                self.assertRaises(OverflowError, call, slip)
