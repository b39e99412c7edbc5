"""The text form: what unpack writes, what pack reads."""

import unittest

from tests.support import EXAMPLES
from tests.support.command import SQUARE_HEAD, SQUARE_POINTS, SQUARE_RECORDS, binary

from revosti_command.parts import join, split
from revosti_command.read import pack
from revosti_command.write import unpack

LINE = (1, 1, 2, 0, 0, 3, 0, 0)
LINE_TEXT = "strike 1-2, split at 3"


def records_text(*records):
    """The record lines of a sheet over the square."""
    text = unpack(split(binary(records)))
    assert text.startswith(SQUARE_HEAD)
    return text[len(SQUARE_HEAD):]


def records_of(text):
    """The records of a text over the square, as tuples."""
    return [tuple(r) for r in pack(SQUARE_HEAD + text).parts.records]


class Unpack(unittest.TestCase):
    """Exact texts."""

    def test_square(self):
        self.assertEqual(unpack(split(binary(SQUARE_RECORDS))),
                         SQUARE_HEAD + "strike 1-3, split at 2\nstrike 2-4, split at 1\n")

    def test_nesting(self):
        self.assertEqual(records_text(
            (1, 1, 2, 0, 0, 5, 2, 6), (3, 3, 7, 1, 2, 4, 6, 3), (2, 3, 9, 0, 0, 8, 4, 0),
            (2, 1, 4, 0, 0, 6, 0, 5), (3, 2, 4, 5, 6, 7, 8, 0), (1, 4, 3, 0, 0, 2, 0, 0)),
            "strike 1-2, split at 5\n"
            "  pair 3-7: crossing 1-2, centres 4 6\n"
            "  pair 3-9: split at 8\n"
            "    pair 1-4: split at 6\n"
            "    pair 2-4: crossing 5-6, centres 7 8\n"
            "strike 4-3, split at 2\n")

    def test_odd_next(self):
        self.assertEqual(records_text((1, 1, 3, 0, 0, 2, 0, 1)), "strike 1-3, split at 2, next 1\n")
        self.assertEqual(records_text((1, 1, 3, 0, 0, 2, 0, 9)), "strike 1-3, split at 2, next 9\n")

    def test_odd_first(self):
        self.assertEqual(records_text((1, 1, 3, 0, 0, 2, 7, 0)), "strike 1-3, split at 2, first 7\n")
        self.assertEqual(records_text((1, 1, 3, 0, 0, 2, 1, 2), LINE),
                         "strike 1-3, split at 2, first 1\n" + LINE_TEXT + "\n")

    def test_all_options_in_order(self):
        self.assertEqual(records_text((1, 1, 3, 5, 6, 2, 1, 1)),
                         "strike 1-3, split at 2, u 5, v 6, first 1, next 1\n")

    def test_wrong_kind_is_a_record_line(self):
        self.assertEqual(records_text((7, 1, 2, 3, 4, 5, 6, 2), LINE),
                         "record 7 1 2 3 4 5 6 2\n" + LINE_TEXT + "\n")

    def test_line_among_cases(self):
        self.assertEqual(records_text((1, 1, 2, 0, 0, 3, 2, 0), (1, 4, 3, 0, 0, 2, 0, 3),
                                      (3, 1, 2, 3, 4, 1, 2, 0)),
                         LINE_TEXT + "\n  record 1 4 3 0 0 2 0 3\n"
                         "  pair 1-2: crossing 3-4, centres 1 2\n")

    def test_gap_is_unused(self):
        self.assertEqual(records_text((1, 1, 2, 0, 0, 3, 3, 0), (1, 2, 3, 4, 5, 6, 7, 8),
                                      (3, 1, 2, 3, 4, 1, 2, 0), (0,) * 8),
                         LINE_TEXT + "\n  unused 1 2 3 4 5 6 7 8\n"
                         "  pair 1-2: crossing 3-4, centres 1 2\n"
                         "unused 0 0 0 0 0 0 0 0\n")

    def test_bad_index_inside_leaves_the_outside(self):
        self.assertEqual(records_text((1, 1, 2, 0, 0, 3, 2, 3), (3, 1, 2, 3, 4, 1, 2, 99), LINE),
                         LINE_TEXT + "\n  pair 1-2: crossing 3-4, centres 1 2, next 99\n"
                         + LINE_TEXT + "\n")

    def test_order(self):
        order = (4, 1, 2, 3, 4, 0, 3, 0)
        points = [(5, 7, 0, 0, 0, 0, 0, 4), (5, 8, 0, 0, 0, 0, 0, 0)]
        self.assertEqual(records_text(LINE[:6] + (2, 0), order, *points), LINE_TEXT + "\n  pair 1-2: order 3-7-8-4\n")
        self.assertEqual(records_text(LINE[:6] + (2, 0), order[:6] + (0, 0)), LINE_TEXT + "\n  pair 1-2: order 3-4\n")

    def test_order_among_others(self):
        self.assertEqual(records_text(
            (1, 1, 2, 0, 0, 5, 2, 9), (4, 3, 7, 1, 2, 0, 3, 5), (5, 6, 0, 0, 0, 0, 0, 4), (5, 8, 0, 0, 0, 0, 0, 0),
            (2, 3, 9, 0, 0, 8, 6, 0), (4, 1, 4, 6, 9, 0, 7, 8), (5, 2, 0, 0, 0, 0, 0, 0), (3, 2, 4, 5, 6, 7, 8, 0),
            (1, 4, 3, 0, 0, 2, 0, 0)),
            "strike 1-2, split at 5\n"
            "  pair 3-7: order 1-6-8-2\n"
            "  pair 3-9: split at 8\n"
            "    pair 1-4: order 6-2-9\n"
            "    pair 2-4: crossing 5-6, centres 7 8\n"
            "strike 4-3, split at 2\n")

    def test_odd_order(self):
        line, last = LINE[:6] + (2, 0), (5, 7, 0, 0, 0, 0, 0, 0)
        for order, words in (((4, 1, 2, 3, 4, 5, 3, 0), "order 3-7-4, c 5"), ((4, 1, 2, 3, 4, 0, 3, 9), "order 3-7-4, next 9"),
                             ((4, 1, 2, 3, 4, 6, 3, 1), "order 3-7-4, c 6, next 1")):
            self.assertEqual(records_text(line, order, last), f"{LINE_TEXT}\n  pair 1-2: {words}\n")
        self.assertEqual(records_text(line, (4, 1, 2, 3, 4, 0, 9, 0)), f"{LINE_TEXT}\n  pair 1-2: order 3-4, first 9\n")

    def test_order_that_no_line_can_say(self):
        line, order = LINE[:6] + (2, 0), (4, 1, 2, 3, 4, 0, 3, 0)
        for points, words in (([(5, 7, 0, 0, 0, 0, 0, 9)], "    point 7, next 9\n"),
                              ([(5, 7, 1, 2, 3, 4, 5, 6)], "    point 7, b 1, u 2, v 3, c 4, d 5, next 6\n"),
                              ([(5, 7, 0, 0, 0, 0, 0, 5), (0,) * 8, (5, 8, 0, 0, 0, 0, 0, 0)],
                               "    point 7\n    unused 0 0 0 0 0 0 0 0\n    point 8\n"),
                              ([(5, 7, 0, 0, 0, 0, 0, 4), (2, 1, 2, 0, 0, 3, 9, 5), (5, 8, 0, 0, 0, 0, 0, 0)],
                               "    point 7\n    record 2 1 2 0 0 3 9 5\n    point 8\n"),
                              ([(4, 7, 1, 2, 3, 0, 0, 0)], "    record 4 7 1 2 3 0 0 0\n")):
            self.assertEqual(records_text(line, order, *points), f"{LINE_TEXT}\n  pair 1-2: order from 3 to 4\n{words}")
        self.assertEqual(records_text(line, (4, 1, 2, 3, 4, 0, 4, 0), (0,) * 8, (5, 7, 0, 0, 0, 0, 0, 0)),
                         f"{LINE_TEXT}\n  pair 1-2: order from 3 to 4\n    unused 0 0 0 0 0 0 0 0\n    point 7\n")

    def test_order_or_point_out_of_place(self):
        self.assertEqual(records_text((4, 1, 2, 3, 4, 0, 2, 0), (5, 7, 0, 0, 0, 0, 0, 0)),
                         "record 4 1 2 3 4 0 2 0\nunused 5 7 0 0 0 0 0 0\n")
        self.assertEqual(records_text(LINE[:6] + (2, 0), (5, 7, 0, 0, 0, 0, 0, 0)), f"{LINE_TEXT}\n  record 5 7 0 0 0 0 0 0\n")

    def test_short_files(self):
        self.assertEqual(unpack(split(b"")), "bytes\n")
        self.assertEqual(unpack(split(b"\x0a\xff")), "bytes 0a ff\n")
        self.assertEqual(unpack(split(binary([], [], n=0))), "rule 1  # EUC_2D\npoints 0\n")

    def test_rules(self):
        for rule, line in ((0, "rule 0"), (2, "rule 2  # CEIL_2D"), (3, "rule 3  # ATT"), (4, "rule 4  # MAN_2D"),
                           (5, "rule 5  # MAX_2D"), (6, "rule 6"), (2**32 - 1, "rule 4294967295")):
            for numbers in (False, True):
                self.assertEqual(unpack(split(binary([], [], rule)), numbers), line + "\npoints 0\n")

    def test_cut(self):
        self.assertEqual(unpack(split(binary([], SQUARE_POINTS[:2], n=5, tail=b"\1\2"))),
                         "rule 1  # EUC_2D\npoints 5, cut\n  1  0 0\n  2  10 0\n  bytes 01 02\n")

    def test_tail(self):
        self.assertEqual(unpack(split(binary([LINE], tail=b"\0" * 15))),
                         SQUARE_HEAD + LINE_TEXT + "\nbytes" + " 00" * 15 + "\n")

    def test_numbers(self):
        text = unpack(split(binary(SQUARE_RECORDS)), numbers=True)
        self.assertRegex(text, r"(?m)^strike 1-3, split at 2 +# 1$")
        self.assertRegex(text, r"(?m)^strike 2-4, split at 1 +# 2$")
        text = unpack(split((EXAMPLES / "stretch.bin").read_bytes()), numbers=True)
        self.assertRegex(text, r"(?m)^    pair 1-5: order 4-6-2-3-1-5 +# 3 to 7$")


class Pack(unittest.TestCase):
    """Hand-written texts."""

    def test_square(self):
        text = SQUARE_HEAD + "strike 1-3, split at 2\nstrike 2-4, split at 1"
        self.assertEqual(join(pack(text).parts), binary(SQUARE_RECORDS))

    def test_comments_blanks_and_line_ends(self):
        text = ("# a board\r\n\r\n  rule 01 # EUC_2D\r\npoints 4\r\n1 0 0\r\n2\t10 0\r\n"
                "     3 10 10\r\n4 0   10 # last\r\n   # cases\r\n"
                "strike 1 - 3 ,split at 2\r\n\r\nstrike 2-4,split   at 1\r\n")
        self.assertEqual(join(pack(text).parts), binary(SQUARE_RECORDS))

    def test_rules_by_number_and_by_name(self):
        for rule, name in enumerate(("EUC_2D", "CEIL_2D", "ATT", "MAN_2D", "MAX_2D"), 1):
            for words in (rule, name, f"{rule}  # another", f" {name}# {rule}"):
                self.assertEqual(join(pack(f"rule {words}\npoints 0").parts), binary([], [], rule))

    def test_nesting_gives_the_numbers(self):
        self.assertEqual(records_of("strike 1-2, split at 5\n"
                                    "   pair 3-7: crossing 1-2, centres 4 6\n"
                                    "   pair 3-9: split at 8\n"
                                    "       pair 1-4: split at 6\n"
                                    "   # outer again\n"
                                    "   pair 4-9: split at 8\n"
                                    "strike 4-3, split at 2\n"),
                         [(1, 1, 2, 0, 0, 5, 2, 6), (3, 3, 7, 1, 2, 4, 6, 3),
                          (2, 3, 9, 0, 0, 8, 4, 5), (2, 1, 4, 0, 0, 6, 0, 0),
                          (2, 4, 9, 0, 0, 8, 0, 0), (1, 4, 3, 0, 0, 2, 0, 0)])

    def test_order(self):
        self.assertEqual(records_of("strike 1-2, split at 5\n"
                                    "  pair 3-7: order 1 - 6-8 -2 # a new order\n"
                                    "  pair 3-9: order from 8 to 9\n"
                                    "       point 4\n"
                                    "       point 3\n"
                                    "  pair 4-9: order 8-9\n"
                                    "strike 4-3, split at 2\n"),
                         [(1, 1, 2, 0, 0, 5, 2, 9), (4, 3, 7, 1, 2, 0, 3, 5), (5, 6, 0, 0, 0, 0, 0, 4), (5, 8, 0, 0, 0, 0, 0, 0),
                          (4, 3, 9, 8, 9, 0, 6, 8), (5, 4, 0, 0, 0, 0, 0, 7), (5, 3, 0, 0, 0, 0, 0, 0), (4, 4, 9, 8, 9, 0, 0, 0),
                          (1, 4, 3, 0, 0, 2, 0, 0)])

    def test_given_indexes_of_an_order_win(self):
        self.assertEqual(records_of("strike 1-2, split at 3\n  pair 1-2: order 1-3-4-2, c 5, first 0, next 9\n"
                                    "  pair 1-3: order from 1 to 3, first 9\n    point 2, b 1, u 2, v 3, c 4, d 5, next 0\n    point 4\n"),
                         [(1, 1, 2, 0, 0, 3, 2, 0), (4, 1, 2, 1, 2, 5, 0, 9), (5, 3, 0, 0, 0, 0, 0, 4), (5, 4, 0, 0, 0, 0, 0, 0),
                          (4, 1, 3, 1, 3, 0, 9, 0), (5, 2, 1, 2, 3, 4, 5, 0), (5, 4, 0, 0, 0, 0, 0, 0)])

    def test_whole_sheet_may_be_indented(self):
        self.assertEqual(records_of("    strike 1-2, split at 3\n      pair 1-2: split at 4\n"
                                    "    strike 1-2, split at 3\n"),
                         [(1, 1, 2, 0, 0, 3, 2, 3), (2, 1, 2, 0, 0, 4, 0, 0), LINE])

    def test_given_indexes_win(self):
        self.assertEqual(records_of("strike 1-2, split at 3, first 0, next 7\n"
                                    "  pair 1-2: split at 4, next 0\n  pair 1-3: split at 4\n"
                                    "strike 1-2, split at 3\n"),
                         [(1, 1, 2, 0, 0, 3, 0, 7), (2, 1, 2, 0, 0, 4, 0, 0),
                          (2, 1, 3, 0, 0, 4, 0, 0), LINE])

    def test_unused_keeps_the_chain(self):
        self.assertEqual(records_of("strike 1-2, split at 3\n        unused 9 9 9 9 9 9 9 9\n"
                                    "strike 1-2, split at 3\n"),
                         [(1, 1, 2, 0, 0, 3, 0, 3), (9,) * 8, LINE])

    def test_bytes_alone(self):
        self.assertEqual(join(pack("bytes 0A ff # two\nbytes 00\n").parts), b"\x0a\xff\0")

    def test_cut_with_whole_points_as_bytes(self):
        text = "rule 1\npoints 3, cut\n1 5 6\nbytes 01 00 00 00 02 00 00 00 03\n"
        self.assertEqual(join(pack(text).parts), binary([], [(5, 6), (1, 2)], n=3, tail=b"\3"))

    def test_record_lines_are_told(self):
        text = SQUARE_HEAD + "\n# one\nstrike 1-2, split at 3\n\n  pair 1-2: split at 4\n"
        self.assertEqual(pack(text).lines, [9, 11])
        text = SQUARE_HEAD + "strike 1-2, split at 3\n\n  pair 1-2: order 1-3-4-2\n  pair 1-3: order from 1 to 3\n    point 2\n"
        self.assertEqual(pack(text).lines, [7, 9, 9, 9, 10, 11])
