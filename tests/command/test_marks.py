"""Sets of marks: a packed set as text, sizes, and what is no set."""

import unittest

from tests.support.command import Run
from tests.support.packing import SIZES, packed, some

from revosti_command.edges import edges
from revosti_command.marks import BadMarks, byte_points, packed_points, read_marks

NAMES = ("struck", "open", "pending")


class Sizes(unittest.TestCase):
    def test_size_tells_the_points(self):
        for n, size in SIZES.items():
            self.assertEqual((packed_points(bytes(size)), byte_points(bytes(n * (n - 1) // 2))), (n, n))

    def test_each_size_has_one_number_of_points(self):
        packed_sizes = {(n * (n - 1) // 2 + 3) // 4: n for n in range(4, 181)}
        byte_sizes = {n * (n - 1) // 2: n for n in range(4, 181)}
        for size, n in packed_sizes.items():
            self.assertEqual(packed_points(bytes(size)), n)
        self.assertEqual(len(packed_sizes), 177)
        self.assertEqual([(size, packed_sizes[size], byte_sizes[size]) for size in packed_sizes.keys() & byte_sizes], [(6, 7, 4)])

    def test_sizes_of_none(self):
        for size in (0, 1, 5, 8, 4027, 4029):
            with self.assertRaisesRegex(BadMarks, f"a packed set of 4 to 180 points, found {size:,} bytes?, the size of none"):
                packed_points(bytes(size))
        for size in (0, 3, 5, 7, 16109, 16290):
            with self.assertRaisesRegex(BadMarks, f"a byte set of 4 to 180 points, found {size:,} bytes?, the size of none"):
                byte_points(bytes(size))


class Read(unittest.TestCase):
    def test_marks(self):
        for n in SIZES:
            self.assertEqual(read_marks(packed(some(n)), n), some(n))

    def test_one_mark_of_3(self):
        for n in (4, 5, 6, 7, 8):
            for at, (a, b) in enumerate(edges(n)):
                marks = some(n)
                marks[at] = 3
                with self.assertRaisesRegex(BadMarks, f"the mark of {a}-{b}, found 3"):
                    read_marks(packed(marks), n)

    def test_one_unused_bit(self):
        for n in range(4, 20):
            used = 2 * (len(edges(n)) % 4) or 8
            for bit in range(8):
                data = packed([0] * len(edges(n)))
                data[-1] |= 1 << bit
                if bit < used:
                    self.assertEqual(sum(read_marks(data, n)), 1 + bit % 2)
                else:
                    with self.assertRaisesRegex(BadMarks, "unused bits of the last byte"):
                        read_marks(data, n)

    def test_other_sizes(self):
        for n in SIZES:
            for wrong in (-1, 1):
                with self.assertRaisesRegex(BadMarks, f"a packed set of {n} points, {SIZES[n]:,} bytes, found {SIZES[n] + wrong:,} "):
                    read_marks(bytes(SIZES[n] + wrong), n)


class Show(unittest.TestCase):
    def test_four_points(self):
        run = Run("convert", "--to", "text", data=packed([1, 0, 1, 2, 1, 1]))
        self.assertEqual((run.status, run.err), (0, ""))
        self.assertEqual(run.text, "points 4 edges 6\nopen 1 2\nstruck 1 3\nopen 1 4\npending 2 3\nopen 2 4\nopen 3 4\n"
                                   "total struck 1 pending 1 open 4\n")

    def test_180_points(self):
        marks = some(180)
        first, *lines, last = Run("convert", "--to", "text", data=packed(marks)).text.splitlines()
        self.assertEqual(first, "points 180 edges 16110")
        self.assertEqual(lines, [f"{NAMES[mark]} {a} {b}" for (a, b), mark in zip(edges(180), marks)])
        self.assertEqual(last, f"total struck {marks.count(0)} pending {marks.count(2)} open {marks.count(1)}")

    def test_no_set(self):
        for data, words in ((b"", "found 0 bytes"), (bytes(5), "found 5 bytes"), (b"\xff\x0f", "the mark of 1-2, found 3"),
                            (b"\x55\x15", "unused bits")):
            run = Run("convert", "--to", "text", data=data)
            self.assertEqual((run.status, run.out), (2, b""))
            self.assertIn("revosti: standard input: expected ", run.err)
            self.assertIn(words, run.err)
