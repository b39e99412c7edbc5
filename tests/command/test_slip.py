"""revosti slip: what examiner and candidate see; bad use and bad files, in words."""

import json
import unittest
from unittest import mock

from tests.support import ROOT
from tests.support.command import SQUARE_HEAD, SQUARE_RECORDS, Folder, Run, binary

from revosti import NoLibrary, meaning
from revosti_command.slip import tell_slip

MOST = 2**64 - 1
RELEASED = 1 << 40
STOPS = [(1, 1, 3, 0, 0, 2, 0, 2), (1, 1, 2, 0, 0, 3, 0, 0)]
SLIP = 14 | 2 << 8 | 1 << 24
PAGE = (ROOT / "docs/FORMATS.md").read_text(encoding="utf-8")


class BadUse(unittest.TestCase):
    def test_numbers(self):
        for word, said in (("x", 'expected a slip, found "x"'), ("", 'expected a slip, found ""'), ("-1", 'expected a slip, found "-1"'),
                           ("0x1", 'expected a slip, found "0x1"'), ("²", 'expected a slip, found "²"'),
                           (str(MOST + 1), f"expected a slip from 0 to {MOST}, found {MOST + 1}"),
                           ("9" * 5000, f"expected a slip from 0 to {MOST}, found " + "9" * 5000)):
            run = Run("slip", f"--number={word}")
            self.assertEqual((run.status, run.out), (2, b""))
            self.assertEqual(run.err.splitlines()[-1], f"revosti slip: error: argument --number: {said}")


class BadFiles(unittest.TestCase):
    def test_missing_file(self):
        run = Run("slip", "/nowhere/sheet")
        self.assertEqual((run.status, run.out, run.err), (3, b"", "revosti: /nowhere/sheet: No such file or directory\n"))

    def test_bad_text(self):
        run = Run("slip", data=b"rul 1\n")
        self.assertEqual((run.status, run.out), (2, b""))
        self.assertIn('revosti: standard input, line 1, column 1: expected "rule" or "bytes", found "rul"', run.err)

    def test_no_library(self):
        with mock.patch("revosti_command.options.measured", side_effect=NoLibrary("gcc is missing")):
            run = Run("slip", data=SQUARE_HEAD.encode())
        self.assertEqual((run.status, run.out, run.err), (3, b"", "revosti: gcc is missing\n"))


class Slip(Folder):
    """A sheet on the square that accepts a line and stops at its second."""

    def setUp(self):
        super().setUp()
        self.file = self.put("a.sheet", binary(STOPS))

    def test_a_sheet(self):
        told = "\n\nRefused, number 14: "
        for words, slip, more in (((self.file,), SLIP, told), ((self.file, "--release"), SLIP | RELEASED, told),
                                  (("--number", SLIP), SLIP, "\n"),
                                  (("--number", f"00{SLIP}", "--release"), SLIP | RELEASED, "\n")):
            run = Run("slip", *words)
            self.assertEqual((run.status, run.err), (1, ""))
            self.assertTrue(run.text.startswith(tell_slip(slip) + more), run.text)
        self.assertEqual(Run("slip", data=binary(STOPS)).text, Run("slip", self.file).text)

    def test_accepted(self):
        self.assertEqual(Run("slip", data=binary(SQUARE_RECORDS)).all, (0, tell_slip(2 << 24) + "\n", ""))

    def test_json(self):
        examiner, candidate = ({"bytes": [14, 0, 2, 0, 1, 0], "refusal": 14, "released": 0, "record": 2, "lines": 1},
                               {"bytes": [255, 0, 0, 0, 1, 0], "refusal": 255, "released": 0, "record": 0, "lines": 1})
        self.assertEqual(json.loads(Run("slip", self.file, "--json").text),
                         {"refusal": 14, "slip": SLIP, "released": False, "examiner": examiner, "candidate": candidate})

    def test_words(self):
        told = f"refused by 14, record 4000, 1 line accepted. {meaning(14)}"
        self.assertEqual(tell_slip(14 | 4000 << 8 | 1 << 24).splitlines(),
                         ["Slip 17801230 is not released.", f"The examiner sees 14 0 160 15 1 0: {told}",
                          "The candidate sees 255 0 0 0 1 0: the sheet stopped, 1 line accepted."])
        self.assertEqual(tell_slip(14 | 4000 << 8 | 1 << 24 | RELEASED).splitlines(),
                         ["Slip 1099529429006 is released.", f"The examiner sees 14 1 160 15 1 0: {told}",
                          "The candidate sees 14 1 160 15 1 0: the same."])
        self.assertEqual(tell_slip(2 << 24).splitlines(),
                         ["Slip 33554432 is not released.", "The examiner sees 0 0 0 0 2 0: no refusal, 2 lines accepted.",
                          "The candidate sees 0 0 0 0 2 0: the same."])
        self.assertEqual(tell_slip(768).splitlines()[1:],
                         ["The examiner sees 0 0 3 0 0 0: no refusal, record 3, 0 lines accepted.",
                          "The candidate sees 0 0 0 0 0 0: no refusal, 0 lines accepted."])

    def test_page(self):
        self.assertTrue(f"\n```\n{Run('slip', self.file).text}```\n" in PAGE)

    def test_a_broken_sheet_has_a_slip(self):
        for data in (binary(), binary(SQUARE_RECORDS, tail=b"\1")):
            run = Run("slip", "--form", "binary", data=data)
            self.assertTrue(run.text.startswith(tell_slip(7) + "\n"), run.text)

    def test_a_board_that_is_refused_has_none(self):
        whole = binary(SQUARE_RECORDS)
        for data, refusal in ((whole[:20], 7), (b"", 7), (b"\6" + whole[1:], 3), (whole[:4] + b"\3" + whole[5:], 1)):
            run = Run("slip", "--form", "binary", data=data)
            self.assertEqual((run.status, run.text), (1, ""))
            self.assertIn(f"revosti: standard input: Refused, number {refusal}: ", run.err)
