"""Packed sets: the two conversions, the mark of an edge, and damaged sets, which every operation refuses by 6."""

import unittest
from itertools import combinations

from tests.support.packing import SIZES, packed, some, unpacked
from tests.support.square import LINES, N, TABLE

import revosti
from revosti.library import library
from revosti.operations import lend


def numbers(call, *arguments):
    """The refusal number of a call, or 0."""
    try:
        call(*arguments)
    except revosti.Refusal as found:
        return found.number
    return 0


def readers(n):
    """Every operation that reads a packed set, as a function of the set."""
    table, tour = [1] * (n * (n - 1) // 2), range(1, n + 1)
    return (lambda marks: revosti.mark_sheet(n, table, marks, LINES), lambda marks: revosti.ask_sheet(n, table, marks, LINES),
            lambda marks: revosti.confirm(n, marks), lambda marks: revosti.withdraw(n, marks),
            lambda marks: revosti.list_pairs(n, table, marks, 1, 2, 3), lambda marks: revosti.check_tour(n, table, marks, tour),
            lambda marks: revosti.unpack_marks(n, marks))


class Convert(unittest.TestCase):
    def test_four_points(self):
        self.assertEqual(revosti.pack_marks(N, bytes([1, 0, 1, 2, 1, 1])), bytearray([0b10_01_00_01, 0b01_01]))
        self.assertEqual(revosti.unpack_marks(N, bytes([0b10_01_00_01, 0b01_01])), bytearray([1, 0, 1, 2, 1, 1]))

    def test_the_set_of_formats(self):
        marks = revosti.fresh_marks(N)
        revosti.mark_sheet(N, TABLE, marks, [[1, 1, 3, 0, 0, 2, 0, 0]])
        revosti.ask_sheet(N, TABLE, marks, [[1, 2, 4, 0, 0, 1, 0, 0]])
        self.assertEqual((list(marks), list(revosti.unpack_marks(N, marks))), ([81, 6], [1, 0, 1, 1, 2, 1]))

    def test_there_and_back(self):
        for n in SIZES:
            for marks in (some(n), some(n, 1), [0] * len(some(n)), [2] * len(some(n))):
                byte_set = bytes(marks)
                found = revosti.pack_marks(n, byte_set)
                self.assertEqual(found, packed(marks))
                self.assertEqual(revosti.unpack_marks(n, found), byte_set)
                self.assertEqual(revosti.pack_marks(n, revosti.unpack_marks(n, packed(marks))), packed(marks))

    def test_every_set_of_four_points(self):
        accepted = 0
        for number in range(2**16):
            data = number.to_bytes(2, "little")
            marks = unpacked(data)
            whole = 3 not in marks and marks[6:] == [0, 0]
            self.assertEqual(numbers(revosti.unpack_marks, N, data), 0 if whole else 6, data)
            accepted += whole
            if whole:
                self.assertEqual(revosti.unpack_marks(N, data), bytes(marks[:6]))
        self.assertEqual(accepted, 3**6)

    def test_fresh_marks(self):
        for n in SIZES:
            self.assertEqual(revosti.unpack_marks(n, revosti.fresh_marks(n)), bytes([revosti.OPEN]) * len(some(n)))

    def test_what_is_handed_in_stays(self):
        byte_set, marks = bytearray([2, 1, 0, 2, 1, 0]), packed([0, 1, 2, 0, 1, 2])
        revosti.pack_marks(N, byte_set)
        revosti.unpack_marks(N, marks)
        self.assertEqual((byte_set, marks), (bytearray([2, 1, 0, 2, 1, 0]), packed([0, 1, 2, 0, 1, 2])))

    def test_refusals(self):
        for number, n, byte_set in ((1, 3, bytes(3)), (1, 181, bytes([7])), (1, 0, b""), (1, 2**32 - 1, b""), (6, N, b""), (6, N, bytes(5)),
                                    (6, N, bytes(7)), (6, N, bytes(2)), (6, N, bytes([3, 0, 0, 0, 0, 0])), (6, 5, bytes(6)),
                                    (6, N, bytes([0, 0, 0, 0, 0, 255])), (6, N, bytes([0, 0, 4, 0, 0, 0])), (0, N, bytes(6))):
            self.assertEqual(numbers(revosti.pack_marks, n, byte_set), number, (n, byte_set))
        for number, n, marks in ((1, 3, bytes(1)), (1, 181, bytes([255])), (1, 0, b""), (1, 2**32 - 1, b""), (6, N, b""), (6, N, bytes(1)),
                                 (6, N, bytes(3)), (6, N, bytes(6)), (6, 5, bytes(2)), (0, N, bytes(2))):
            self.assertEqual(numbers(revosti.unpack_marks, n, marks), number, (n, marks))


class Damaged(unittest.TestCase):
    def refused(self, n, damaged):
        """Each operation refuses this set, and leaves it."""
        for read in readers(n):
            marks = bytearray(damaged)
            self.assertEqual(numbers(read, marks), 6, (n, damaged))
            self.assertEqual(marks, damaged)

    def test_a_mark_of_3(self):
        for n in SIZES:
            places = range(len(some(n))) if n < 20 else (0, 1, 2, 3, 4, 5000, len(some(n)) - 1)
            for place in places:
                marks = some(n)
                marks[place] = 3
                self.refused(n, packed(marks))

    def test_an_unused_bit(self):
        met = 0
        for n in SIZES:
            marks = some(n)
            for place in range(len(marks), 4 * SIZES[n]):
                for wrong in (1, 2):
                    self.refused(n, packed(marks + [0] * (place - len(marks)) + [wrong]))
                    met += 1
        self.assertEqual(met, 40)  # 20 unused places, two bits each

    def test_another_size(self):
        for n in SIZES:
            for wrong in (packed(some(n))[1:], packed(some(n)) + b"\0", bytearray(some(n))):
                self.refused(n, wrong)

    def test_good_sets_are_not_refused(self):
        for n in SIZES:
            for read in readers(n):
                self.assertNotEqual(numbers(read, packed(some(n))), 6)


class Written(unittest.TestCase):
    """A set that is only written: its size is tested, what it holds is not read, and a refusal writes nothing."""

    def written(self, name, n, read, size):
        """The answer of a function, and a buffer of 255s after it. What is read is lent in front, if any is."""
        buffer = bytearray([255]) * size
        given = [part for data in (read, buffer) if data is not None for part in lend(data)]
        return getattr(library(), name)(n, *given), buffer

    def test_whatever_it_holds(self):
        for n in SIZES:
            marks = some(n)
            for name, read, left in (("revosti_fresh_marks", None, packed([1] * len(marks))),
                                     ("revosti_pack_marks", bytearray(marks), packed(marks)),
                                     ("revosti_unpack_marks", packed(marks), bytearray(marks))):
                self.assertEqual(self.written(name, n, read, len(left)), (0, left))
                for size in (0, len(left) - 1, len(left) + 1):
                    self.assertEqual(self.written(name, n, read, size), (6, bytearray([255]) * size))

    def test_refusals(self):
        for name, wrong in (("revosti_pack_marks", bytearray([0, 1, 2, 0, 1, 3])), ("revosti_pack_marks", bytearray(5)),
                            ("revosti_unpack_marks", packed([0, 1, 2, 0, 1, 3])), ("revosti_unpack_marks", packed([0] * 6 + [1])),
                            ("revosti_unpack_marks", bytearray(1))):
            for size in (0, 2, 6):
                self.assertEqual(self.written(name, N, wrong, size), (6, bytearray([255]) * size))
                self.assertEqual(self.written(name, 3, wrong, size), (1, bytearray([255]) * size))


class MarkOf(unittest.TestCase):
    def test_sizes(self):
        self.assertEqual({n: revosti.marks_size(n) for n in SIZES}, SIZES)
        self.assertEqual([revosti.marks_size(n) for n in (0, 3, 181, 2**32)], [0] * 4)

    def test_each_edge(self):
        for n in SIZES:
            marks, data = some(n), packed(some(n))
            every = list(combinations(range(1, n + 1), 2))
            self.assertEqual([revosti.mark_of(n, data, a, b) for a, b in every], marks)
            self.assertEqual([revosti.mark_of(n, bytes(data), b, a) for a, b in every], marks)
