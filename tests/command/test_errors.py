"""Each complaint about a text, with its line and column."""

import unittest
from unittest import mock

from tests.support.command import SQUARE_HEAD, Run

from revosti_command.read import pack
from revosti_command.scan import BadText

# text after the head of the square, line after the head, column, message
RECORDS = [
    ("strike", 1, 7, "expected a point, found the end of the line"),
    ("strike 1 3", 1, 10, 'expected "-", found "3"'),
    ("strike 1-x", 1, 10, 'expected a point, found "x"'),
    ("strike 1-3x, split at 2", 1, 10, 'expected a point, found "3x"'),
    ("strike 1-65536, split at 2", 1, 10, "expected a point from 0 to 65535, found 65536"),
    ("strike 1-" + "9" * 5000, 1, 10, "expected a point from 0 to 65535, found " + "9" * 5000),
    ("strike 1-3 split at 2", 1, 12, 'expected ",", found "split"'),
    ("strike 1-3, cut at 2", 1, 13, 'expected "split", found "cut"'),
    ("strike 1-3, split 2", 1, 19, 'expected "at", found "2"'),
    ("strike 1-3, split at", 1, 21, "expected a point, found the end of the line"),
    ("strike 1-3, split at # 2", 1, 21, "expected a point, found the end of the line"),
    ("strike 1-3, split at 2 next 4", 1, 24, 'expected a comma or the end of the line, found "next"'),
    ("strike 1-3, split at 2, last 4", 1, 25, 'expected "u" or "v" or "first" or "next", found "last"'),
    ("strike 1-3, split at 2, next", 1, 29, 'expected a number after "next", found the end of the line'),
    ("strike 1-3, split at 2, next 4, first 1", 1, 31, 'expected the end of the line, found ","'),
    ("strike 1-3, split at 2, first 4, first 1", 1, 34, 'expected "next", found "first"'),
    ("strike 1-3, split at 2\n  pair 1-2, split at 3", 2, 11, 'expected ":", found ","'),
    ("strike 1-3, split at 2\n  pair 1-2: cross 3", 2, 13, 'expected "split", "crossing" or "order", found "cross"'),
    ("strike 1-3, split at 2\n  pair 1-2: crossing 3-4 centres 1 2", 2, 26, 'expected ",", found "centres"'),
    ("strike 1-3, split at 2\n  pair 1-2: crossing 3-4, centers 1 2", 2, 27, 'expected "centres", found "centers"'),
    ("strike 1-3, split at 2\n  pair 1-2: crossing 3-4, centres 1", 2, 36, "expected a point, found the end of the line"),
    ("strike 1-3, split at 2\n  pair 1-2: crossing 3-4, centres 1 2, first 3", 2, 40, 'expected "next", found "first"'),
    ("strike 1-3, split at 2\npair 1-2: split at 3", 2, 1,
     'expected "strike", found "pair"; a pair is indented under its split'),
    ("pair 1-2: split at 3", 1, 1, 'expected "strike", found "pair"; a pair is indented under its split'),
    ("strike 1-3, split at 2\n  strike 2-4, split at 1", 2, 3,
     'expected "pair" inside a split, found "strike"; a strike has the indentation of the first, 0'),
    ("strike 1-3, split at 2\n    pair 1-2: split at 3\n  pair 1-3: split at 4", 3, 3,
     "expected an indentation of 0 or 4 blanks, as above, found 2"),
    ("  strike 1-3, split at 2\nstrike 2-4, split at 1", 2, 1,
     "expected an indentation of 2 blanks, as above, found 0"),
    ("strike 1-3, split at 2\n  pair 1-2: crossing 3-4, centres 1 2\n    pair 1-3: split at 4", 3, 5,
     "expected no further indentation: the record above it holds no split"),
    ("record 1 2 3 4 5 6 7 8\n  pair 1-3: split at 4", 2, 3,
     "expected no further indentation: the record above it holds no split"),
    ("strike 1-3, split at 2\n\tpair 1-3: split at 4", 2, 1,
     "expected blanks as indentation, found a tab or the like"),
    ("strike 1-3, split at 2\n \tpair 1-3: split at 4", 2, 2,
     "expected blanks as indentation, found a tab or the like"),
    ("record 1 2 3", 1, 13, "expected number 4 of 8, found the end of the line"),
    ("record 1 2 3 4 5 6 7 8 9", 1, 24, 'expected the end of the line, found "9"'),
    ("record 1 2 3 4 5 6 7 70000", 1, 22, "expected number 8 of 8 from 0 to 65535, found 70000"),
    ("unused 1 2 3 4 5 6 7 8", 1, 1, 'expected "strike" or "record": record 1 is the first line, never unused'),
    ("strike 1-3, split at 2\nunused 1", 2, 9, "expected number 2 of 8, found the end of the line"),
    ("5 1 1", 1, 1, 'expected "strike", found "5"'),
    ("Strike 1-3, split at 2", 1, 1, 'expected "strike", found "Strike"'),
    ("strike 1-3, split at 2\nstroke 1", 2, 1,
     'expected "strike", "pair", "point", "record", "unused" or "bytes", found "stroke"'),
    ("bytes 1", 1, 7, 'expected a byte as two hexadecimal digits, found "1"'),
    ("bytes 0g", 1, 7, 'expected a byte as two hexadecimal digits, found "0g"'),
    ("bytes 01\nstrike 1-3, split at 2", 2, 1, 'expected the end of the text, found "strike"'),
    ("strike 1–3, split at 2", 1, 9, 'expected "-", found "–"'),
    ("strike 1\x003", 1, 9, 'expected "-", found character 0'),
]

# the same for lines under "strike 1-3, split at 2"
ORDERS = [
    ("  pair 1-2: order", 2, 18, 'expected a point or "from", found the end of the line'),
    ("  pair 1-2: order x", 2, 19, 'expected a point or "from", found "x"'),
    ("  pair 1-2: order 1", 2, 20, 'expected "-", found the end of the line'),
    ("  pair 1-2: order 1-", 2, 21, "expected a point, found the end of the line"),
    ("  pair 1-2: order 1-2-", 2, 23, "expected a point, found the end of the line"),
    ("  pair 1-2: order 1-2-65536", 2, 23, "expected a point from 0 to 65535, found 65536"),
    ("  pair 1-2: order 1-2 3", 2, 23, 'expected a comma or the end of the line, found "3"'),
    ("  pair 1-2: order 1-2, u 3", 2, 24, 'expected "c" or "first" or "next", found "u"'),
    ("  pair 1-2: order 1-2, next 3, first 4", 2, 30, 'expected the end of the line, found ","'),
    ("  pair 1-2: order from", 2, 23, "expected a point, found the end of the line"),
    ("  pair 1-2: order from 1-2", 2, 25, 'expected "to", found "-"'),
    ("  pair 1-2: order from 1 to", 2, 28, "expected a point, found the end of the line"),
    ("  pair 1-2: order from 1 to 2 3", 2, 31, 'expected a comma or the end of the line, found "3"'),
    ("  pair 1-2: order 1-3-2\n    point 3", 3, 5, "expected no further indentation: the record above it holds no split"),
    ("  pair 1-2: order 1-3-2\n    pair 1-3: split at 2", 3, 5, "expected no further indentation: the record above it holds no split"),
    ("  pair 1-2: order from 1 to 2\n    point", 3, 10, "expected a point, found the end of the line"),
    ("  pair 1-2: order from 1 to 2\n    point 3, a 4", 3, 14,
     'expected "b" or "u" or "v" or "c" or "d" or "next", found "a"'),
    ("  pair 1-2: order from 1 to 2\n    point 3, u 1, b 2", 3, 19, 'expected "v" or "c" or "d" or "next", found "b"'),
    ("  pair 1-2: order from 1 to 2\n    point 3\n      point 4", 4, 7,
     "expected no further indentation: the record above it holds no split"),
    ("  pair 1-2: order from 1 to 2\n    pair 1-3: split at 2", 3, 5,
     'expected "point" inside an order, found "pair"; a pair is indented under its split'),
    ("  pair 1-2: order from 1 to 2\n    strike 1-3, split at 2", 3, 5,
     'expected "point" inside an order, found "strike"; a strike has the indentation of the first, 0'),
    ("  point 3", 2, 3, 'expected "pair" inside a split, found "point"; a point is indented under its "order from"'),
    ("point 3", 2, 1, 'expected "strike", found "point"; a point is indented under its "order from"'),
]

# whole text, line, column, message
HEADS = [
    ("", 1, 1, 'expected "rule" or "bytes", found the end of the text'),
    ("# nothing\n\n", 3, 1, 'expected "rule" or "bytes", found the end of the text'),
    ("\n  points 4\n", 2, 3, 'expected "rule" or "bytes", found "points"'),
    ("rule", 1, 5, "expected a rule, found the end of the line"),
    ("rule one", 1, 6, 'expected a rule, found "one"'),
    ("rule att", 1, 6, 'expected a rule, found "att"'),
    ("rule MAN_3D", 1, 6, 'expected a rule, found "MAN_3D"'),
    ("rule MAN", 1, 6, 'expected a rule, found "MAN"'),
    ("rule MAN_2D 4", 1, 13, 'expected the end of the line, found "4"'),
    ("rule -1", 1, 6, 'expected a rule, found "-"'),
    ("rule 4294967296", 1, 6, "expected a rule from 0 to 4294967295, found 4294967296"),
    ("rule 1 2", 1, 8, 'expected the end of the line, found "2"'),
    ("rule 1", 1, 7, 'expected "points", found the end of the text'),
    ("rule 1\nstrike 1-2, split at 3", 2, 1, 'expected "points", found "strike"'),
    ("rule 1\npoints", 2, 7, "expected the number of points, found the end of the line"),
    ("rule 1\npoints 4, short", 2, 9, 'expected ", cut" or the end of the line, found ","'),
    ("rule 1\npoints 2\n 1 0 0\n", 4, 1, "expected point 2 of 2, found the end of the text"),
    ("rule 1\npoints 2\n 1 0 0\nstrike 1-2, split at 1", 4, 1, 'expected point 2 of 2, found "strike"'),
    ("rule 1\npoints 2\n 1 0 0\n 3 0 0", 4, 2, 'expected point 2 of 2, found "3"'),
    ("rule 1\npoints 2\n 1 0\n", 3, 5, "expected a second coordinate, found the end of the line"),
    ("rule 1\npoints 2\n 1 0.5 0\n", 3, 5, 'expected a second coordinate, found "."'),
    ("rule 1\npoints 2\n 1 -5 0\n", 3, 4, 'expected a first coordinate, found "-"'),
    ("rule 1\npoints 2\n 1 0 0 0\n", 3, 8, 'expected the end of the line, found "0"'),
    ("rule 1\npoints 4000000000\n", 3, 1, "expected point 1 of 4000000000, found the end of the text"),
    ("rule 1\npoints 1, cut\n1 0 0\n", 4, 1, 'expected fewer than 1 whole points after "cut"'),
    ("rule 1\npoints 1, cut\nbytes 0 0", 3, 7, 'expected a byte as two hexadecimal digits, found "0"'),
    ("rule 1\npoints 2, cut\nbytes " + "00 " * 16, 3, 1, 'expected fewer than 2 whole points after "cut"'),
    ("rule 1\npoints 2, cut\n1 0 0\nstrike 1-2, split at 1", 4, 1,
     'expected a point, "bytes" or the end of the text, found "strike"'),
    ("rule 1\npoints 2, cut\nbytes 00\n1 0 0", 4, 1, 'expected "bytes" or the end of the text, found "1"'),
    ("bytes 00\nrule 1", 2, 1, 'expected "bytes" or the end of the text, found "rule"'),
]


class Errors(unittest.TestCase):
    """BadText for each text of the tables."""

    def check(self, text, line, column, message):
        with self.assertRaises(BadText) as caught:
            pack(text)
        error = caught.exception
        self.assertEqual((error.line, error.column, error.message), (line, column, message))

    def test_records(self):
        below = SQUARE_HEAD.count("\n")
        for text, line, column, message in RECORDS:
            with self.subTest(text[:60]):
                self.check(SQUARE_HEAD + text, below + line, column, message)

    def test_orders(self):
        below = SQUARE_HEAD.count("\n")
        for text, line, column, message in ORDERS:
            with self.subTest(text):
                self.check(f"{SQUARE_HEAD}strike 1-3, split at 2\n{text}", below + line, column, message)

    def test_heads(self):
        for text, line, column, message in HEADS:
            with self.subTest(text):
                self.check(text, line, column, message)

    def test_too_many_records(self):
        text = SQUARE_HEAD + "strike 1-2, split at 3\n" * 41
        with mock.patch("revosti_command.read.MAX_16", 40):
            self.check(text, 47, 1, "expected at most 40 records, this is record 41")
            order = "  pair 1-2: order 1" + "-3" * 40
            self.check(f"{SQUARE_HEAD}strike 1-2, split at 3\n{order}", 8, 3, "expected at most 40 records, this is record 41")

    def test_command_says_it(self):
        run = Run("pack", data=b"rule 1\npoints x\n")
        self.assertEqual((run.status, run.out), (2, b""))
        self.assertEqual(run.err, "revosti: standard input, line 2, column 8: "
                                  'expected the number of points, found "x"\n')
