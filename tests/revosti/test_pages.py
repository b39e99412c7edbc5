"""Edge pages over the library: every page of many boards against lines made here, pages read again, each damage with its line, each refusal in
its order."""

import random
import unittest
from array import array
from itertools import combinations

from tests.support.packing import packed, some
from tests.support.square import N, TABLE

import revosti
from revosti.library import library
from revosti.operations import lend

WORDS = {0: "struck", 1: "open", 2: "pending"}
SIZES = (*range(4, 21), 25, 40, 41, 160, 177, 180)  # 16, 25, 40 and 160 have a last page of 60 lines


def board(n, seed=0):
    """Lengths and marks of n points, extreme ones among them."""
    r = random.Random(100 * n + seed)
    return [r.choice((0, 9, 10, 1_999_999, 2_000_000, r.randrange(2_000_001))) for _ in range(n * (n - 1) // 2)], some(n, seed)


def lines(n, table, marks):
    """All lines of a wall list, by Python's own formatting."""
    return [f"{a:>3} {b:>3} {length:>7} {WORDS[mark]:<8}\n".encode() for (a, b), length, mark in zip(combinations(range(1, n + 1), 2), table, marks)]


def pages(n, table, marks):
    """The pages, by their lines."""
    every = lines(n, table, marks)
    return [b"".join(every[i:i + 60]) for i in range(0, len(every), 60)]


class Written(unittest.TestCase):
    def test_every_page(self):
        for n in SIZES:
            table, marks = board(n)
            self.assertEqual([revosti.write_page(n, table, packed(marks), p + 1) for p in range(revosti.page_count(n))], pages(n, table, marks), n)

    def test_bytes_past_the_page_stay(self):
        table, marks = board(5)
        text = bytearray(b"\xff" * 300)
        answer = library().revosti_write_page(5, *lend(array("I", table)), *lend(packed(marks)), 1, *lend(text))
        self.assertEqual((answer, bytes(text)), (65536 * 250, pages(5, table, marks)[0] + b"\xff" * 50))

    def test_one_byte_too_few(self):
        table, marks = board(12)
        for page, size in ((1, 1500), (2, 150)):
            text = bytearray(b"\xff" * (size - 1))
            self.assertEqual(library().revosti_write_page(12, *lend(array("I", table)), *lend(packed(marks)), page, *lend(text)), 22)
            self.assertEqual(bytes(text), b"\xff" * (size - 1))

    def test_refusals(self):
        for number, n, table, marks, page in ((1, 3, TABLE, [1] * 6, 1), (2, N, TABLE[:-1], [1] * 6, 1), (5, N, [2_000_001, *TABLE[1:]], [3] * 6, 0),
                                              (6, N, TABLE, [3] * 6, 0), (26, N, TABLE, [1] * 6, 0), (26, N, TABLE, [1] * 6, 2),
                                              (26, N, TABLE, [1] * 6, 2**32 - 1)):
            with self.assertRaises(revosti.Refusal) as caught:
                revosti.write_page(n, table, packed(marks), page)
            self.assertEqual(caught.exception.number, number)


class Read(unittest.TestCase):
    def read(self, n, page, text, table, marks):
        """What the function answers and leaves."""
        lengths, left = array("I", table), packed(marks)
        answer = library().revosti_read_page(n, page, *lend(bytearray(text)), *lend(lengths), *lend(left))
        return answer, lengths.tolist(), bytes(left)

    def told(self, n, page, text):
        """The line of 27, where nothing is changed."""
        table, marks = board(n, 1)
        answer, lengths, left = self.read(n, page, text, table, marks)
        self.assertEqual((answer & 0xff, lengths, left), (27, table, bytes(packed(marks))))
        return answer >> 8

    def test_only_its_edges(self):
        for n in SIZES:
            old, old_marks, (new, new_marks) = *board(n, 1), board(n)
            for page, text in enumerate(pages(n, new, new_marks), 1):
                part = slice(60 * (page - 1), 60 * page)
                table, marks = list(old), list(old_marks)
                table[part], marks[part] = new[part], new_marks[part]
                self.assertEqual(self.read(n, page, text, old, old_marks), (0, table, bytes(packed(marks))), (n, page))

    def test_all_pages(self):
        for n in SIZES:
            table, left = [2**32 - 1] * (n * (n - 1) // 2), revosti.fresh_marks(n)
            new, marks = board(n)
            for page, text in enumerate(pages(n, new, marks), 1):
                revosti.read_page(n, page, text, table, left)
            self.assertEqual((table, left), (new, packed(marks)))

    def test_every_column_of_a_line(self):
        table, marks = board(12)
        for page in (1, 2):
            text = pages(12, table, marks)[page - 1]
            for line in (0, 2, len(text) // 25 - 1):
                for column in range(25):
                    at = 25 * line + column
                    for byte in {0, 9, 10, 13, 32, 48, 49, 57, 65, 111, 112, 115, 255} - {text[at]}:
                        damaged = text[:at] + bytes([byte]) + text[at + 1:]
                        if 8 <= column < 15 and damaged[25 * line:25 * line + 25] == line_of(damaged, line, 12, page):
                            continue  # another length
                        self.assertEqual(self.told(12, page, damaged), line + 1, (line, column, byte))

    def test_lines_missing_cut_and_surplus(self):
        table, marks = board(12)
        for page, text in enumerate(pages(12, table, marks), 1):
            count = len(text) // 25
            for size in (0, 1, 24, 25, 26, 49, len(text) - 26, len(text) - 25, len(text) - 1):
                self.assertEqual(self.told(12, page, text[:size]), size // 25 + 1)
            for more in (b" ", b"\n", text[:25], text[-25:], b"x" * 60):
                self.assertEqual(self.told(12, page, text + more), count + 1)
            self.assertEqual(self.told(12, page, text[25:]), 1)
            self.assertEqual(self.told(12, page, text[:25] + text[50:]), 2)

    def test_lengths(self):
        for length, right in (("      0", True), ("2000000", True), ("2000001", False), ("9999999", False), ("     00", False), ("0000001", False),
                              ("01     ", False), ("1      ", False), ("   1 2 ", False), ("     +1", False), ("       ", False)):
            text = f"  1   2 {length} open    \n".encode() + b"".join(lines(N, TABLE, [1] * 6)[1:])
            if right:
                self.assertEqual(self.read(N, 1, text, TABLE, [2] * 6), (0, [int(length), *TABLE[1:]], bytes(packed([1] * 6))))
            else:
                self.assertEqual(self.told(N, 1, text), 1)

    def test_refusals(self):
        text = b"".join(lines(N, TABLE, [1] * 6))
        for number, n, table, marks, page in ((1, 3, TABLE, [1] * 6, 1), (1, 181, [], [], 0), (2, N, TABLE[:-1], [3] * 6, 0), (6, N, TABLE, [3] * 6, 0),
                                              (6, N, TABLE, [1] * 9, 0), (26, N, TABLE, [1] * 6, 0), (26, N, TABLE, [1] * 6, 2)):
            lengths, left = array("I", table), packed(marks) if marks else bytearray()
            before = bytes(left)
            self.assertEqual(library().revosti_read_page(n, page, *lend(bytearray(b"x" + text)), *lend(lengths), *lend(left)), number)
            self.assertEqual((lengths.tolist(), bytes(left)), (list(table), before))
        with self.assertRaises(revosti.Refusal) as caught:
            revosti.read_page(N, 1, text + b"x", list(TABLE), packed([1] * 6))
        self.assertEqual((caught.exception.number, caught.exception.text_line, str(caught.exception)),
                         (27, 7, "Refused, number 27, line 7: The text is not such a page."))


def line_of(text, line, n, page):
    """The line that its own length would make, with the mark that it has."""
    a, b = list(combinations(range(1, n + 1), 2))[60 * (page - 1) + line]
    found = text[25 * line:25 * line + 25]
    digits = found[8:15].lstrip(b" ")
    if not digits.isdigit() or int(digits) > 2_000_000:
        return None
    return f"{a:>3} {b:>3} {int(digits):>7} ".encode() + found[16:]
