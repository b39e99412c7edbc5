"""revosti pages and revosti read-pages: bad files, in words."""

import random
import unittest
from itertools import combinations

from tests.support import EXAMPLES
from tests.support.command import Folder, Run
from tests.support.packing import packed


def lines(n, table, marks):
    """The lines of a wall list."""
    names = {0: "struck", 1: "open", 2: "pending"}
    return [f"{a:>3} {b:>3} {length:>7} {names[mark]:<8}\n".encode()
            for (a, b), length, mark in zip(combinations(range(1, n + 1), 2), table, marks)]


class BadFiles(unittest.TestCase):
    def test_missing_file(self):
        for command in ("pages", "read-pages"):
            run = Run(command, "/nowhere/list")
            self.assertEqual((run.status, run.out, run.err), (3, b"", "revosti: /nowhere/list: No such file or directory\n"))

    def test_sizes(self):
        for data in (b"", b"x", b"x" * 149, b"x" * 151, b"x" * 175):
            run = Run("read-pages", data=data)
            self.assertEqual((run.status, run.out), (2, b""))
            self.assertIn("revosti: standard input: expected the wall list of 4 to 180 points, 25 bytes an edge, found", run.err)
            self.assertIn("the size of none; with --points the page and the line are told\n", run.err)

    def test_points(self):
        for text in ("", "3", "181", "-4", "four", "0004", "9" * 5000):
            run = Run("read-pages", f"--points={text}")
            self.assertEqual((run.status, run.out), (2, b""))
            self.assertIn(f'expected 4 to 180 points, found "{text}"', run.err)


class Lists(Folder):
    """Lists of the square, and of twelve points."""

    def setUp(self):
        super().setUp()
        self.board = EXAMPLES / "square.tsp"

    def listed(self, marks, *more):
        """The list of the square with these marks."""
        run = Run("pages", self.board, "--marks", self.put("a.marks", packed(marks)), *more)
        self.assertEqual((run.status, run.err), (0, ""))
        return run.out

    def test_there_and_back(self):
        marks = [1, 0, 2, 1, 0, 1]
        self.listed(marks, "-o", self.folder / "list")
        wanted = lines(4, [10, 14, 10, 10, 14, 10], marks)
        self.assertEqual((self.folder / "list").read_bytes(), b"".join(wanted))
        self.assertEqual(Run("read-pages", self.folder / "list").out, bytes(packed(marks)))
        self.assertEqual(Run("pages", self.board).out, b"".join(lines(4, [10, 14, 10, 10, 14, 10], [1] * 6)))

    def test_faulty_lists_in_words(self):
        r = random.Random(3)
        table, marks = [r.randrange(2_000_001) for _ in range(66)], [r.randrange(3) for _ in range(66)]
        every = b"".join(lines(12, table, marks))
        first, last = every[:25], every[-25:]
        expected = "expected the line of"
        for text, words in ((every[:50] + b"x" + every[51:], f"page 1, line 3: {expected} 1-4 with a length up to 2,000,000, found 'x"),
                            (every[25:], f"page 1, line 1: {expected} 1-2 with a length up to 2,000,000, found '  1   3 "),
                            (every[:-30], f"page 2, line 5: {expected} 10-12 with a length up to 2,000,000, found ' 10  12 "),
                            (every[:1500], f"page 2, line 1: {expected} 9-10 with a length up to 2,000,000, found the end\n"),
                            (every[:-25], f"page 2, line 6: {expected} 11-12 with a length up to 2,000,000, found the end\n"),
                            (every + last, "page 2, line 7: expected the end after 6 lines, found 25 bytes more\n"),
                            (every + b"\n", "page 2, line 7: expected the end after 6 lines, found 1 byte more\n"),
                            (every[:1500] + first + every[1500:],
                             f"page 2, line 1: {expected} 9-10 with a length up to 2,000,000, found '  1   2 ")):
            run = Run("read-pages", "--points", "12", data=text)
            self.assertEqual((run.status, run.out), (2, b""))
            self.assertIn(f"revosti: standard input: {words}", run.err)
        run = Run("read-pages", "--points", "12", data=every)
        self.assertEqual((run.status, run.out, run.err), (0, bytes(packed(marks)), ""))

    def test_lengths_of_another_board(self):
        wall = self.put("list", self.listed([1, 0, 2, 1, 0, 1]))
        out = self.folder / "new.marks"
        self.assertEqual(Run("read-pages", wall, "--board", self.board, "-o", out).all, (0, "", ""))
        wide = EXAMPLES / "wide_weights.tsp"
        run = Run("read-pages", wall, "--board", wide, "-o", out, "--force")
        self.assertEqual(run.all, (2, "", f"revosti: {wall}: page 1, line 1: the length of 1-2 is 10 in the list and 13 on {wide}\n"))
        five = self.put("five.txt", "rule 1\npoints 5\n1 0 0\n2 1 0\n3 2 0\n4 3 0\n5 4 0\n")
        run = Run("read-pages", wall, "--board", five)
        self.assertEqual(run.all, (2, "", f"revosti: {wall}: the list is of 4 points, and {five} has another number\n"))
        self.assertEqual(out.read_bytes(), packed([1, 0, 2, 1, 0, 1]))
