"""revosti saving: bad use and bad files, in words."""

import unittest
from unittest import mock

from tests.support.command import SQUARE_HEAD, SQUARE_RECORDS, Run, binary

from revosti import NoLibrary


class BadUse(unittest.TestCase):
    def complaint(self, *words, data=b""):
        """What is said of bad use, below the usage."""
        run = Run("saving", *words, data=data)
        self.assertEqual((run.status, run.out), (2, b""))
        self.assertTrue(run.err.startswith("usage: revosti saving "), run.err)
        return run.err.splitlines()[-1].removeprefix("revosti saving: error: ")

    def test_how_many_points(self):
        for rule, count, names in (("exchange", 4, "P Q X Y"), ("move", 5, "C X Y U V"), ("crossing", 8, "P Q R S X Y Z W")):
            for given in (1, count - 1, count + 1, 9):
                self.assertEqual(self.complaint("x", rule, *[1] * given),
                                 f"argument POINT: {rule} takes {count} points, {names}, found {given}")
            self.assertIn("required: POINT", self.complaint("x", rule))

    def test_points(self):
        for word, said in (("x", 'expected a point, found "x"'), ("", 'expected a point, found ""'),
                           ("1-2", 'expected a point, found "1-2"'),
                           ("-1", 'expected a point, found "-1"'), ("+1", 'expected a point, found "+1"'),
                           ("1.0", 'expected a point, found "1.0"'), ("²", 'expected a point, found "²"'),
                           ("65536", "expected a point from 0 to 65535, found 65536"),
                           ("0070000", "expected a point from 0 to 65535, found 70000"),
                           ("9" * 5000, "expected a point from 0 to 65535, found " + "9" * 5000)):
            self.assertEqual(self.complaint("x", "exchange", 1, 2, word, 3), f"argument POINT: {said}")

    def test_what_is_asked(self):
        self.assertIn("invalid choice: 'swap'", self.complaint("x", "swap", 1, 2, 3, 4))
        self.assertIn("required: rule, POINT", self.complaint("x"))
        self.assertIn("required: BOARD, rule, POINT", self.complaint())


class BadFiles(unittest.TestCase):
    def test_missing_file(self):
        run = Run("saving", "/nowhere/board", "exchange", 1, 2, 3, 4)
        self.assertEqual((run.status, run.out, run.err), (3, b"", "revosti: /nowhere/board: No such file or directory\n"))

    def test_bad_text(self):
        run = Run("saving", "-", "exchange", 1, 2, 3, 4, data=b"rul 1\n")
        self.assertEqual((run.status, run.out), (2, b""))
        self.assertIn('revosti: standard input, line 1, column 1: expected "rule" or "bytes", found "rul"', run.err)

    def test_cut_board(self):
        for data in (binary(SQUARE_RECORDS)[:20], b"\1\0\0"):
            run = Run("saving", "--form", "binary", "-", "exchange", 1, 2, 3, 4, data=data)
            self.assertEqual((run.status, run.out), (1, b""))
            self.assertIn("revosti: standard input: Refused, number 7: ", run.err)

    def test_no_library(self):
        with mock.patch("revosti_command.options.measured", side_effect=NoLibrary("gcc is missing")):
            run = Run("saving", "-", "exchange", 1, 2, 3, 4, data=SQUARE_HEAD.encode())
        self.assertEqual((run.status, run.out, run.err), (3, b"", "revosti: gcc is missing\n"))
