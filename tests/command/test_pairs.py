"""revosti pairs at every split of a sheet; pairs and mark --high on bad use and bad files."""

import json
import unittest
from itertools import combinations
from unittest import mock

from tests.support.command import NINE, SQUARE_HEAD, Folder, Run
from tests.support.packing import packed
from tests.support.plain import Board, edge

from revosti import NoLibrary
from revosti_command.nest import nest
from revosti_command.read import pack


class BadUse(unittest.TestCase):
    def test_points(self):
        for words, name, found in ((("x", 2, 3), "A", "x"), ((1, "1-2", 3), "B", "1-2"), ((1, 2, ""), "C", ""), ((1, 2, "+3"), "C", "+3")):
            run = Run("pairs", "board", *words)
            self.assertEqual((run.status, run.out), (2, b""))
            self.assertEqual(run.err.splitlines()[-1], f'revosti pairs: error: argument {name}: expected a point, found "{found}"')
        run = Run("pairs", "board", 1, 2, 65536)
        self.assertEqual(run.err.splitlines()[-1], "revosti pairs: error: argument C: expected a point from 0 to 65535, found 65536")


class Files(Folder):
    def setUp(self):
        super().setUp()
        self.board, self.bad, self.marks = (self.folder / name for name in ("a.txt", "b.txt", "a.marks"))
        self.board.write_text(SQUARE_HEAD + "strike 1-3, split at 2\n")
        self.bad.write_text(SQUARE_HEAD + "stroke 1-3\n")
        self.marks.write_bytes(packed([1] * 6))

    def commands(self, board, *more):
        """Both commands on a board."""
        return Run("pairs", board, 1, 3, 2, *more), Run("mark", board, "--marks", self.marks, *more)

    def test_bad_text_names_its_file(self):
        for board, more in ((self.bad, ()), (self.board, ("--high", self.bad)), (self.bad, ("--high", self.board))):
            for run in self.commands(board, *more):
                self.assertEqual((run.status, run.out), (2, b""))
                self.assertTrue(run.err.startswith(f"revosti: {self.bad}, line 7, column 1: expected "), run.err)

    def test_missing_file(self):
        missing = self.folder / "none"
        for board, more in ((missing, ()), (self.board, ("--high", missing)), (missing, ("--high", self.board))):
            for run in self.commands(board, *more):
                self.assertEqual((run.status, run.out, run.err), (3, b"", f"revosti: {missing}: No such file or directory\n"))

    def test_forced_form(self):
        for run in self.commands(self.board, "--high", self.bad, "--form", "text"):
            self.assertTrue(run.err.startswith(f"revosti: {self.bad}, line 7"), run.err)

    def test_no_library(self):
        for more in ((), ("--high", self.board)):
            with mock.patch("revosti_command.options.measured", side_effect=NoLibrary("gcc is missing")):
                for run in self.commands(self.board, *more):
                    self.assertEqual((run.status, run.out, run.err), (3, b"", "revosti: gcc is missing\n"))


class Records(Folder):
    """The pairs at the split of a record, at any depth, against the plain rules."""

    def setUp(self):
        super().setUp()
        self.parts = pack(NINE.read_text()).parts

    def listed(self, number, *more):
        """The pairs that the command lists, and the edges of K."""
        run = Run("pairs", NINE, "--record", number, "--json", *more)
        self.assertEqual((run.status, run.err), (0, ""))
        found = json.loads(run.text)
        return [tuple(pair) for pair in found["pairs"]], {tuple(e) for e in found["under"]}, found["split"]

    def test_every_record(self):
        struck, line, depths = set(), None, set()
        for number, place in nest(self.parts.records).items():
            record = self.parts.records[number - 1]
            if place.depth == 0:
                struck |= {line} - {None}
                line = edge(record.a, record.b)
            if record.kind == 3:
                run = Run("pairs", NINE, "--record", number)
                self.assertEqual(run.all, (2, "", f"revosti: --record: record {number} has a crossing, and no split\n"))
                continue
            pairs, k, c = self.listed(number)
            self.assertEqual((pairs, c), (Board(1, self.parts.points, struck).standing(k, c), record.c))
            self.assertEqual(len(k) > 1, place.depth > 0)
            depths.add(place.depth)
        self.assertGreaterEqual(len(depths), 3)

    def test_words(self):
        self.assertEqual(Run("pairs", NINE, "--record", 22).text, "1 pair stands at 4 under 1-5, 1-8, 3-5.\npair 2-7\n")

    def test_over_a_set(self):
        marks = self.put("a.marks", packed([0 if e == (1, 6) else 2 if e == (5, 6) else 1 for e in combinations(range(1, 10), 2)]))
        pairs, k, c = self.listed(2, "--marks", marks)
        self.assertEqual(pairs, Board(1, self.parts.points, [(1, 6), (4, 6)]).standing(k, c))
        self.assertEqual(pairs[-1], (7, 9))

    def test_no_such_record(self):
        for number, words in ((0, "found 0"), (72, "found 72"), (65535, "found 65535")):
            run = Run("pairs", NINE, "--record", number)
            self.assertEqual((run.status, run.out), (2, b""))
            self.assertIn(f"revosti: --record: expected a record of the sheet, which has 71 records, {words}\n", run.err)

    def test_a_record_that_marking_does_not_reach(self):
        sheet = NINE.read_text().replace("  pair 2-7: split at 2\n    pair 6-9: split at 3\n",
                                         "  pair 1-8: split at 2\n    pair 6-9: split at 3\n")
        run = Run("pairs", "-", "--record", 5, data=sheet.encode())
        self.assertEqual((run.status, run.err), (2, "revosti: --record: marking does not get to record 5\n"))
