"""Boards in TSPLIB texts: packed, explained and drawn from, handed to the library, written, refused in words."""

import unittest
from unittest import mock

from tests.support.command import NINE, SQUARE_HEAD, SQUARE_POINTS, SQUARE_RECORDS, TOOLS, Folder, Run, binary
from tests.support.packing import packed
from tests.support.texts import FAULTS, NODES, SQUARES, WEIGHTS, changed, text

from revosti import NoLibrary
from revosti_command.edges import RULES
from revosti_command.parts import Parts, join, split
from revosti_command.read import pack, pack_beside
from revosti_command.tsplib import BadBoard, read_board, write_board
from revosti_command.write import unpack_beside

EXAMPLES = TOOLS.parent / "examples"
LINES = b"strike 1-3, split at 2\nstrike 2-4, split at 1\n"


class Board(Folder):
    def setUp(self):
        super().setUp()
        self.board = self.folder / "a.tsp"

    def run_beside(self, command, board, *words, data=LINES):
        """A command beside a board."""
        self.board.write_bytes(board)
        return Run(command, "--board", self.board, *words, data=data)


class Packed(Board):
    def test_every_shape(self):
        for name, board in SQUARES.items():
            if "weights" not in name:
                run = self.run_beside("pack", board)
                self.assertEqual((run.status, run.err, run.out), (0, "", binary(SQUARE_RECORDS)), name)

    def test_every_rule(self):
        for rule, name in RULES.items():
            run = self.run_beside("pack", changed(NODES, 5, f"EDGE_WEIGHT_TYPE : {name}"))
            self.assertEqual(run.out, binary(SQUARE_RECORDS, rule=rule))

    def test_what_mark_refuses_is_packed(self):
        nodes = [f"{i} {2**32 - 1} {i}" for i in range(1, 182)]
        board = text(["DIMENSION:181", "EDGE_WEIGHT_TYPE:ATT", "NODE_COORD_SECTION", *nodes, "EOF"])
        run = self.run_beside("pack", board)
        self.assertEqual(run.out, binary(SQUARE_RECORDS, [(2**32 - 1, i) for i in range(1, 182)], rule=3))
        board = text(["DIMENSION:0", "EDGE_WEIGHT_TYPE:ATT", "NODE_COORD_SECTION", "EOF"])
        self.assertEqual(self.run_beside("pack", board, data=b"").out, binary([], [], rule=3))

    def test_examples(self):
        run = Run("pack", "--board", EXAMPLES / "square.tsp", EXAMPLES / "square.txt")
        self.assertEqual(run.out, binary(SQUARE_RECORDS))
        self.assertEqual(run.out, (EXAMPLES / "square.bin").read_bytes())

    def test_odd_records(self):
        odd = b"# odd\nstrike 1-3, split at 2, next 7\nunused 0 0 0 0 0 0 0 0\nbytes 0a\n"
        run = self.run_beside("pack", text(NODES), data=odd)
        self.assertEqual(run.out, binary([(1, 1, 3, 0, 0, 2, 0, 7), (0,) * 8], tail=b"\n"))

    def test_a_sheet_with_a_board(self):
        for data, word in ((SQUARE_HEAD.encode() + LINES, "rule"), (b"points 4\n", "points")):
            run = self.run_beside("pack", text(NODES), data=data)
            self.assertEqual((run.status, run.out, run.err), (
                2, b"", f'revosti: standard input, line 1, column 1: expected "strike", found "{word}"; the board is that of --board\n'))

    def test_a_bad_sheet(self):
        for data, words in ((b"\n  pair 1-2", 'line 2, column 3: expected "strike", found "pair"'),
                            (binary(SQUARE_RECORDS), 'line 1, column 1: expected "strike", found character 1'),
                            (text(NODES), 'line 1, column 1: expected "strike", found "NAME"')):
            for command in ("pack", "explain", "draw"):
                run = self.run_beside(command, text(NODES), data=data)
                self.assertEqual((run.status, run.out), (2, b""))
                self.assertIn(f"revosti: standard input, {words}", run.err)


class Shown(Board):
    """explain and draw beside a board show what they show of the whole sheet."""

    def test_explain(self):
        whole = Run("explain", data=binary(SQUARE_RECORDS))
        self.assertEqual(self.run_beside("explain", text(NODES)).text, whole.text)
        self.assertIn("Edge 1-3 is struck", whole.text)

    def test_line_of_the_sheet(self):
        run = self.run_beside("explain", text(NODES), data=b"# one\n\nstrike 1-2, split at 3\n")
        self.assertIn("Record 1 is at fault, line 3 of the text:", run.text)

    def test_draw(self):
        for words in ((), ("--tour", "1,2,3,4")):
            whole = Run("draw", *words, data=binary(SQUARE_RECORDS))
            self.assertEqual(self.run_beside("draw", text(NODES), *words).out, whole.out)
        self.assertIn(b"tour: length 40", whole.out)

    def test_no_record(self):
        run = self.run_beside("draw", text(NODES), data=b"")
        self.assertIn("open: 6 edges", run.text)


class Refused(Board):
    def test_each_fault(self):
        for command in ("pack", "explain", "draw"):
            for board, line, words in FAULTS:
                run = self.run_beside(command, board)
                self.assertEqual((run.status, run.out, run.err), (2, b"", f"revosti: {self.board}, line {line}: {words}\n"))

    def test_weights(self):
        for command in ("pack", "draw"):
            run = self.run_beside(command, text(WEIGHTS))
            self.assertEqual((run.status, run.out), (2, b""))
            self.assertIn(f"revosti: {self.board}: the board has weights (EXPLICIT), and the input of mark has coordinates", run.err)
        self.assertIn("The board has 4 points and 6 edges (by weights).", self.run_beside("explain", text(WEIGHTS)).text)

    def test_the_board_comes_first(self):
        run = self.run_beside("pack", b"", data=b"what")
        self.assertIn(f"revosti: {self.board}, line 1: expected ", run.err)

    def test_no_file(self):
        run = Run("pack", "--board", self.board, data=LINES)
        self.assertEqual((run.status, run.out, run.err), (3, b"", f"revosti: {self.board}: No such file or directory\n"))

    def test_no_library(self):
        self.board.write_bytes(text(NODES))
        with mock.patch("revosti_command.tsplib.tsplib_points", side_effect=NoLibrary("gcc is missing")):
            run = Run("pack", "--board", self.board, data=LINES)
        self.assertEqual((run.status, run.out, run.err), (3, b"", "revosti: gcc is missing\n"))

    def test_bad_use(self):
        for words in (("explain", "--board", "x", "--form", "binary"), ("draw", "--form", "text", "--board", "x"), ("pack", "--board"),
                      ("unpack", "--board", "x"), ("unpack", "--tsplib", "--records"), ("unpack", "--tsplib", "-n"),
                      ("mark", "--board", "x", "--form", "text", "--marks", "x"), ("slip", "--board", "x", "--form", "binary"),
                      ("fresh", "--board", "x", "--marks", "x"), ("pages", "x", "--board", "x"), ("pairs", "x", 1, 2, 3, "--board", "x"),
                      ("saving", "x", "move", 3, 1, 4, 1, 2, "--board", "x"), ("fresh", "x.tsp", "--form", "tsplib", "--marks", "x")):
            run = Run(*words)
            self.assertEqual((run.status, run.out), (2, b""), words)
            self.assertIn("usage: revosti", run.err)


class Handed(Board):
    """The commands that call the library, on a board's file and on a sheet beside one. The library is asked whether the
    text is one, then for its table."""

    def setUp(self):
        super().setUp()
        self.marks, self.sheet = self.board.with_name("a.marks"), self.board.with_name("a.txt")
        self.marks.write_bytes(packed([1] * 6))
        self.sheet.write_text(SQUARE_HEAD)
        self.of_board = [("fresh", self.board, "--marks", self.folder / "new.marks"), ("saving", self.board, "exchange", 1, 3, 2, 4),
                         ("pairs", self.board, 1, 3, 2), ("pages", self.board)]
        self.beside = [(command, "--board", self.board, *more) for command, *more in
                       (("mark", "--marks", self.marks), ("ask", "--marks", self.marks), ("slip",))]
        self.high = [("pairs", self.sheet, 1, 3, 2, "--high", self.board),
                     ("mark", self.sheet, "--high", self.board, "--marks", self.marks)]

    def test_each_fault(self):
        for board, line, words in FAULTS:
            self.board.write_bytes(board)
            for command in (*self.of_board, *self.beside, *self.high):
                run = Run(*command, data=LINES)
                self.assertEqual((run.status, run.out, run.err), (2, b"", f"revosti: {self.board}, line {line}: {words}\n"), command)

    def test_refused(self):
        for board, number in ((text([*WEIGHTS[:-2], "2000001", "EOF"]), 5), (changed(NODES, 7, "1 1000001 0"), 4)):
            self.board.write_bytes(board)
            for command in (*self.of_board, *self.beside, *self.high):
                run = Run(*command, data=LINES)
                where = f"--high {self.board}" if command in self.high else self.board
                self.assertEqual((run.status, run.out), (1, b""))
                self.assertTrue(run.err.startswith(f"revosti: {where}: Refused, number {number}: "), run.err)

    def test_the_faulty_one_of_two_texts(self):
        other = self.board.with_name("b.tsp")
        for first, second, wrong in ((b"what\n", text(WEIGHTS), self.board), (text(WEIGHTS), b"what\n", other)):
            self.board.write_bytes(first)
            other.write_bytes(second)
            for command in (("pairs", self.board, 1, 3, 2), ("mark", "--board", self.board, "--marks", self.marks)):
                run = Run(*command, "--high", other, data=LINES)
                self.assertEqual((run.status, run.out), (2, b""))
                self.assertTrue(run.err.startswith(f"revosti: {wrong}, line 1: expected NAME"), run.err)

    def test_the_name_tells(self):
        for name in ("a", "a.txt", "a.tsp.txt", "tsp", "atsp", "a.TSP"):
            file = self.board.with_name(name)
            file.write_bytes(text(NODES))
            run = Run("pages", file)
            self.assertEqual((run.status, run.err), (2, f'revosti: {file}, line 1, column 1: expected "rule" or "bytes", found "NAME"\n'))
        run = Run("pages", "-", data=text(NODES))
        self.assertIn("revosti: standard input, line 1, column 1: ", run.err)

    def test_the_form_overrules_the_name(self):
        self.board.write_text(SQUARE_HEAD + "stroke\n")
        for command in (*self.of_board, *self.high):
            run = Run(*command, "--form", "text")
            self.assertEqual((run.status, run.out), (2, b""))
            self.assertTrue(run.err.startswith(f"revosti: {self.board}, line 7, column 1: expected "), run.err)

    def test_a_bad_sheet(self):
        self.board.write_bytes(text(WEIGHTS))
        for data, words in ((SQUARE_HEAD.encode(), 'line 1, column 1: expected "strike", found "rule"; the board is that of --board'),
                            (b"\n  pair 1-2", 'line 2, column 3: expected "strike", found "pair"')):
            for command in self.beside:
                run = Run(*command, data=data)
                self.assertEqual((run.status, run.out), (2, b""))
                self.assertIn(f"revosti: standard input, {words}", run.err)

    def test_no_library(self):
        self.board.write_bytes(text(WEIGHTS))
        for command in (*self.of_board, *self.beside, *self.high):
            with mock.patch("revosti_command.tsplib.tsplib_points", side_effect=NoLibrary("gcc is missing")):
                run = Run(*command, data=LINES)
            self.assertEqual((run.status, run.out, run.err), (3, b"", "revosti: gcc is missing\n"))

    def test_missing_file(self):
        for command in (*self.of_board, *self.beside, *self.high):
            run = Run(*command, data=LINES)
            self.assertEqual((run.status, run.out, run.err), (3, b"", f"revosti: {self.board}: No such file or directory\n"))


class Written(unittest.TestCase):
    def test_square(self):
        for rule, name in RULES.items():
            run = Run("unpack", "--tsplib", data=binary(SQUARE_RECORDS, rule=rule))
            lines = ["TYPE : TSP", "DIMENSION : 4", f"EDGE_WEIGHT_TYPE : {name}", *NODES[5:]]
            self.assertEqual((run.status, run.err, run.out), (0, "", text(lines)))

    def test_records(self):
        run = Run("unpack", "--records", data=binary(SQUARE_RECORDS, tail=b"\1\2"))
        self.assertEqual((run.status, run.err, run.out), (0, "", LINES + b"bytes 01 02\n"))
        self.assertEqual(Run("unpack", "--records", data=binary()).out, b"")

    def test_there_and_back(self):
        nine = join(pack(NINE.read_text()).parts)
        for data in (nine, nine[:-1], binary(), binary(SQUARE_RECORDS, rule=5), binary([(9,) * 8, *SQUARE_RECORDS]), binary([], []),
                     binary(SQUARE_RECORDS, [(2**32 - 1, i) for i in range(300)])):
            parts = split(data)
            board = read_board(write_board(parts).encode())
            self.assertEqual(join(pack_beside(board, unpack_beside(parts)).parts), data)

    def test_no_board(self):
        inside = "the file ends inside the board"
        for data, words in ((b"", inside), (bytes(7), inside), (binary()[:-1], inside), (binary(n=5), inside),
                            (binary(rule=0), "rule 0 has no name in TSPLIB"), (binary(rule=6), "rule 6 has no name in TSPLIB"),
                            (binary(rule=2**32 - 1), "rule 4294967295 has no name in TSPLIB")):
            for option in ("--tsplib", "--records"):
                run = Run("unpack", option, data=data)
                self.assertEqual((run.status, run.out, run.err), (2, b"", f"revosti: standard input: {words}\n"))

    def test_no_board_in_parts(self):
        with self.assertRaises(BadBoard) as caught:
            write_board(Parts(1, 4, SQUARE_POINTS[:3], [], b""))
        self.assertEqual((caught.exception.line, caught.exception.message), (0, "the file ends inside the board"))
