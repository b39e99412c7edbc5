"""The fingerprint beside a set: which lengths it is of, held against the board by every command that takes both."""

import hashlib
import struct

from tests.support import EXAMPLES
from tests.support.command import NINE, SQUARE_RECORDS, Folder, Run, binary
from tests.support.packing import packed

SQUARE, LOW, HIGH, SHEET = (EXAMPLES / name for name in ("square.tsp", "square_weights.tsp", "wide_weights.tsp", "square.txt"))
OTHER = "the set is of another board: 4 points, digest "
TABLE, WIDE = [10, 14, 10, 10, 14, 10], [13, 18, 13, 13, 18, 13]


def digest(table):
    """The digest of a table, as FORMATS has it."""
    return hashlib.sha256(struct.pack(f"<{len(table)}I", *table)).hexdigest()


class Sets(Folder):
    def setUp(self):
        super().setUp()
        self.file = self.folder / "a.marks"
        self.beside = self.folder / "a.marks.fingerprint"
        self.other = self.put("other.tsp", SQUARE.read_text().replace("3 10 10", "3 11 10"))
        self.started = Run("fresh", SQUARE, "--marks", self.file)

    def reading(self, board):
        """Every command that takes a board and a set, and leaves the set as it is."""
        marks = ("--marks", self.file)
        return [("pages", board, *marks), ("pairs", board, 1, 2, 3, *marks), ("edges", board, *marks), ("tour", board, "1,2,3,4", *marks),
                ("explain", "--board", board, SHEET, *marks), ("slip", "--board", board, SHEET, *marks)]

    def changing(self, board):
        """Every command that takes a board and a set, and changes the set."""
        return [(name, "--board", board, SHEET, "--marks", self.file) for name in ("ask", "mark")]


class Board(Sets):
    def test_written_by_fresh(self):
        self.assertEqual(self.started.all, (0, "Struck: 0 edges. Pending: 0 edges. Open: 6 edges.\n", ""))
        self.assertEqual(self.beside.read_text(), "# which lengths the set of marks beside it is of (docs/FORMATS.md)\n"
                                                  f"points 4\ntable {digest(TABLE)}\n")

    def test_the_same_lengths(self):
        for board in (SQUARE, LOW):
            for words in (*self.reading(board), ("draw", SQUARE, "--marks", self.file)):
                self.assertEqual((Run(*words).status, Run(*words).err, Run(*words).notes), (0, "", []), words)
        for words in self.changing(LOW)[:1]:
            self.assertEqual((Run(*words).status, Run(*words).notes), (0, []))

    def test_another_board(self):
        for words in (*self.reading(self.other), *self.changing(self.other), ("draw", self.other, "--marks", self.file)):
            run = Run(*words)
            self.assertEqual((run.status, run.out), (2, b""), words)
            self.assertTrue(run.err.startswith(f"revosti: {self.file}: {OTHER}"), run.err)
        self.assertEqual(self.file.read_bytes(), packed([1] * 6))

    def test_unknown_origin(self):
        self.beside.unlink()
        for words in (*self.reading(self.other), *self.changing(self.other), ("draw", self.other, "--marks", self.file)):
            self.file.write_bytes(packed([1] * 6))
            run = Run(*words)
            self.assertIn(run.status, (0, 1))
            self.assertEqual((run.err, len(run.notes)), ("", 1), words)
            self.assertEqual(run.notes[0],
                             f"revosti: {self.file}: the set is of unknown origin: no a.marks.fingerprint beside it tells "
                             "which board it is of\n")
        self.assertFalse(self.beside.exists())

    def test_damaged(self):
        whole = self.beside.read_text()
        for text in ("", "points 4\n", whole.replace("table", "tables"), whole + "table 12\n", whole.replace("points 4", "points x"),
                     whole + whole,
                     whole.upper(), "\0" * 100):
            self.beside.write_text(text)
            run = Run("pages", SQUARE, "--marks", self.file)
            self.assertEqual((run.status, run.out), (2, b""), text)
            self.assertIn(f"revosti: {self.beside}", run.err)

    def test_through_a_link(self):
        folder = self.folder / "links"
        folder.mkdir()
        (folder / "b.marks").symlink_to(self.file)
        self.assertIn(OTHER, Run("pages", self.other, "--marks", folder / "b.marks").err)

    def test_goes_along(self):
        there, back = self.folder / "b", self.folder / "c"
        Run("convert", self.file, "--to", "bytes", "-o", there)
        Run("convert", there, "--to", "packed", "-o", back)
        self.assertEqual((self.folder / "c.fingerprint").read_bytes(), self.beside.read_bytes())
        self.assertIn(OTHER, Run("pages", self.other, "--marks", back).err)

    def test_of_a_list(self):
        wall = self.put("wall", Run("pages", SQUARE, "--marks", self.file).out)
        self.assertEqual(Run("read-pages", wall, "-o", self.folder / "d").status, 0)
        self.assertEqual((self.folder / "d.fingerprint").read_bytes(), self.beside.read_bytes())

    def test_of_other_points(self):
        run = Run("pages", NINE, "--marks", self.file)
        self.assertEqual(run.status, 2)
        self.assertIn(f"{OTHER}", run.err)
        self.assertIn("this one has 9 points", run.err)
        self.beside.unlink()
        self.assertIn("expected a packed set of 9 points, 9 bytes, found 2 bytes", Run("pages", NINE, "--marks", self.file).err)

    def test_confirm_and_withdraw_ask_for_no_board(self):
        Run(*self.changing(SQUARE)[0])
        self.assertEqual(Run("withdraw", "--marks", self.file).all[::2], (0, ""))
        self.assertTrue(self.beside.exists())


class Limits(Sets):
    """A set of two boards, low and high."""

    def setUp(self):
        super().setUp()
        self.assertEqual(Run("fresh", LOW, "--high", HIGH, "--marks", self.file, "--force").status, 0)
        self.cut_board = self.put("cut.txt", binary(SQUARE_RECORDS,
                                                    [(x // 10 * 12, y // 10 * 12) for x, y in ((0, 0), (10, 0), (10, 10), (0, 10))]))

    def cut(self, board=None, low=LOW, high=HIGH):
        """The board that is cut."""
        return Run("cut", board or self.cut_board, "--low", low, "--high", high, "--marks", self.file)

    def test_written(self):
        self.assertEqual(self.beside.read_text().splitlines()[1:], ["points 4", f"table {digest(TABLE)}", f"high {digest(WIDE)}"])

    def test_marked_between(self):
        self.assertEqual(Run("mark", "--board", LOW, "--high", HIGH, SHEET, "--marks", self.file).all,
                         (0, "2 lines are accepted. Struck: 2 edges. Pending: 0 edges. Open: 4 edges.\n", ""))

    def test_one_board_is_not_enough(self):
        for board in (LOW, HIGH):
            for words in self.changing(board):
                run = Run(*words)
                self.assertEqual((run.status, run.out), (2, b""))
                self.assertIn('the set is of low and high lengths: name the other board with --high, or say with "revosti cut"', run.err)
            self.assertEqual([Run(*words).status for words in self.reading(board)], [0] * 6)
        self.assertIn(OTHER, Run("pages", self.cut_board, "--marks", self.file).err)

    def test_other_high_lengths(self):
        wider = self.put("wider.tsp", HIGH.read_text().replace("18", "19"))
        run = Run("mark", "--board", LOW, "--high", wider, SHEET, "--marks", self.file)
        self.assertEqual(run.status, 2)
        self.assertIn("the set is of other high lengths", run.err)
        Run("fresh", LOW, "--marks", self.file, "--force")
        run = Run("mark", "--board", LOW, "--high", HIGH, SHEET, "--marks", self.file)
        self.assertIn("the set is of one board, and --high names a second", run.err)

    def test_cut(self):
        run = self.cut()
        self.assertEqual((run.status, run.err), (0, ""))
        self.assertEqual(self.beside.read_text().splitlines()[3:], [f"high {digest(WIDE)}", f"cut {digest([12, 17, 12, 12, 17, 12])}"])
        for words in (("pages", self.cut_board, "--marks", self.file), ("mark", self.cut_board, "--marks", self.file)):
            self.assertEqual(Run(*words).all[::2], (0, ""))
        self.assertEqual(self.cut().status, 0)
        self.assertIn("another board is cut already", self.cut(LOW).err)

    def test_cut_outside(self):
        small = self.put("small.txt", binary(SQUARE_RECORDS, [(0, 0), (9, 0), (9, 9), (0, 9)]))
        for board, words in ((small, "the length of 1-2 is 9, not from 10 to 13"),
                             (NINE, "the board has 9 points, and the limits are of 4")):
            self.assertEqual(self.cut(board).all, (2, "", f"revosti: {board}: {words}\n"))
        for limits in ({"low": HIGH}, {"high": LOW}, {"low": self.other}):
            self.assertIn("the set was not started with these low and high lengths", self.cut(**limits).err)
        self.beside.unlink()
        self.assertEqual(self.cut().status, 2)
