"""Files on the page: sheets of both forms, sets with their fingerprints, wall lists, tours; bad ones, and nothing lost by mistake."""


from tests.support import EXAMPLES
from tests.support.page.acting import SIX, Acting

from revosti import fresh_marks
from revosti_command.parts import join
from revosti_command.read import pack

BOARD = "rule 1  # EUC_2D\npoints 6\n  1  95 94\n  2  80 40\n  3  37 28\n  4  29 41\n  5  2 61\n  6  27 3\n"


class Sheets(Acting):
    """Sheets that are opened and saved."""

    def test_both_forms_are_saved(self):
        self.press("#save-whole")
        self.assertEqual(self.saved("board.txt").decode(), BOARD + SIX)
        self.press("#save-binary")
        self.assertEqual(self.saved("board.sheet"), join(pack(BOARD + SIX).parts))

    def test_both_forms_are_opened(self):
        for file in (self.file("a.txt", BOARD + SIX), self.file("a.sheet", join(pack(BOARD + SIX).parts))):
            self.open("#open-any", EXAMPLES / "square.tsp")
            self.assertIn("4 holes", self.text("#board-words"))
            self.open("#open-any", file)
            self.until("document.querySelector('#board-words').innerText.startsWith('6 holes')")
            self.assertEqual(self.value("#editor textarea"), SIX)
            self.browser.click("#check")
            self.assertIn("every line of the sheet is accepted", self.text("#verdict"))

    def test_a_sheet_beside_its_board_and_both_at_once(self):
        self.open("#open-any", EXAMPLES / "square.txt", EXAMPLES / "square.tsp")
        self.until("document.querySelector('#editor textarea').value.includes('strike 2-4')")
        self.assertIn("4 holes", self.text("#board-words"))

    def test_a_stretch(self):
        self.open("#open-any", EXAMPLES / "stretch.tsp", EXAMPLES / "stretch.txt")
        self.until("document.querySelector('#editor textarea').value.includes('order')")
        self.browser.click("#check")
        self.assertIn("every line of the sheet is accepted", self.text("#verdict"))
        rows = self.value("#editor textarea").splitlines()
        self.caret(next(at for at, row in enumerate(rows, 1) if ": order" in row))
        self.assertTrue(self.drawn("stretch") and self.drawn("order"))
        for name, number in (("stretch_point_twice", 23), ("stretch_not_shorter", 24)):
            self.open("#open-any", EXAMPLES / f"{name}.bin")
            self.browser.click("#check")
            self.assertIn(f"Refused, number {number}:", self.text("#verdict"))

    def test_a_sheet_that_is_not_saved_is_not_replaced_unasked(self):
        self.write("strike 1-2, split at 3\n")
        self.open("#open-any", EXAMPLES / "square.txt")
        self.answer("no")
        self.assertEqual(self.value("#editor textarea"), "strike 1-2, split at 3\n")
        self.open("#open-any", EXAMPLES / "square.txt")
        self.answer("yes")
        self.until("document.querySelector('#editor textarea').value.includes('strike 1-3')")

    def test_a_text_with_a_fault_is_opened_and_its_line_is_marked(self):
        self.open("#open-any", self.file("bad.txt", "strike 1-2, split at 3\n pair 1 2\n"))
        self.assertIn('Line 2, column 9: expected "-", found "2"', self.text("#text-fault"))

    def test_bad_files_are_told_and_change_nothing(self):
        before = self.value("#editor textarea"), self.text("#board-words"), self.counts()
        for name, data, words in (
                ("no.tsp", b"NAME : x\nDIMENSION : four\n", "no.tsp, line 2: expected one whole number"), ("empty.tsp", b"", "empty.tsp"),
                ("cut.sheet", (EXAMPLES / "coordinates_cut.bin").read_bytes(), "Refused, number 7"),
                    ("three.sheet", (EXAMPLES / "three_points.bin").read_bytes(), "Here n is 3."),
                ("rule.sheet", (EXAMPLES / "rule_6.bin").read_bytes(), "Here the rule is 6."),
                    ("wide.txt", "strike 1-2, split at 3\n".encode("utf-16"), "the text is UTF-16"),
                ("board.txt", b"rule 1\npoints 4\n1 0 0\n2 x 0\n", 'line 4: expected a first coordinate, found "x"'),
                    ("short.marks", b"\x55", "expected a packed set of 6 points, 4 bytes, found 1 byte"),
                ("three.marks", b"\xff\xff\xff\x3f", "expected 0, 1 or 2 as the mark of 1-2, found 3"),
                    ("a.marks.fingerprint", b"points 6\n", "together with its set"),
                ("noise.bin", bytes(range(256)), "expected a packed set"),
                    ("pages.txt", b"  1   2       1 open    \n" * 3, "found 75 bytes, the size of none")):
            with self.subTest(name):
                self.open("#open-any", self.file(name, data))
                self.assertIn(words, " ".join(self.notices()))
                self.assertEqual((self.value("#editor textarea"), self.text("#board-words"), self.counts()), before)

    def test_dropped_files_are_opened(self):
        self.browser.run("const data = new DataTransfer(); data.items.add(new File([given[0]], 'square.tsp'));"
                         "document.dispatchEvent(new DragEvent('drop', { dataTransfer: data, bubbles: true, cancelable: true }))",
                             (EXAMPLES / "square.tsp").read_text())
        self.until("document.querySelector('#board-words').innerText.startsWith('4 holes')")


class Sets(Acting):
    """Sets of marks with their fingerprints, and wall lists."""

    def save_set(self):
        """Marks the sheet and saves the set: its bytes and the fingerprint."""
        self.browser.click("#mark")
        self.press("#save-set")
        return self.saved("board.marks"), self.saved("board.marks.fingerprint")

    def test_a_set_and_its_fingerprint(self):
        marks, print_ = self.save_set()
        self.assertEqual(len(marks), 4)
        self.assertTrue(print_.startswith(b"# which lengths the set of marks beside it is of (docs/FORMATS.md)\npoints 6\ntable "))
        self.assertEqual(self.text("#unsaved"), "")
        files = self.file("a.marks", marks), self.file("a.marks.fingerprint", print_)
        self.browser.click("#fresh")
        self.answer("yes")
        self.open("#open-set", *files)
        self.assertEqual(self.counts(), [14, 0, 1])

    def test_a_set_of_another_board_is_not_taken(self):
        marks, print_ = self.save_set()
        files = self.file("a.marks", marks), self.file("a.marks.fingerprint", print_)
        self.open("#open-any", self.file("b.txt", BOARD.replace("95 94", "95 95")))
        self.open("#open-any", *files)
        self.assertIn("a.marks: the set is of another board: 6 points, digest", self.notices()[0])
        self.assertEqual(self.counts(), [15, 0, 0])

    def test_a_set_without_a_fingerprint_is_of_unknown_origin(self):
        marks, _ = self.save_set()
        self.open("#open-set", self.file("a.marks", marks))
        self.assertIn("a.marks: the set is of unknown origin: no a.marks.fingerprint beside it tells which board it is of", self.notices())

    def test_marks_that_are_not_saved_are_not_replaced_unasked(self):
        self.browser.click("#ask")
        self.open("#open-set", self.file("a.marks", bytes(fresh_marks(6))))
        self.answer("no")
        self.assertEqual(self.counts(), [14, 1, 0])
        self.open("#open-set", self.file("a.marks", bytes(fresh_marks(6))))
        self.answer("yes")
        self.until("document.querySelector('#show-pending b').innerText === '0'")
        self.assertEqual(self.counts(), [15, 0, 0])

    def test_wall_lists(self):
        self.browser.click("#ask")
        self.browser.click("#tab-wall")
        self.assertIn("  2   3      45 pending \n", self.browser.run("return document.querySelector('#wall').textContent"))
        self.browser.click("#save-wall")
        pages = self.saved("wall.txt")
        self.assertEqual(len(pages), 15 * 25)
        self.browser.click("#tab-sheet")
        self.browser.click("#withdraw")
        self.browser.click("#tab-wall")
        self.open("#open-wall", self.file("w.txt", pages))
        self.answer("yes")
        self.until("document.querySelector('#show-pending b').innerText === '1'")
        for bad, words in ((pages.replace(b" 45 ", b" 46 "), "the length of 2-3 is 46 in the list and 45 on the board"),
            (pages[:-25], "the size of none"),
                           (pages.replace(b"pending", b"pendlng"), "page 1, line 6: expected the line of 2-3")):
            self.open("#open-wall", self.file("w.txt", bad))
            self.assertIn(words, " ".join(self.notices()))
        self.assertEqual(self.counts(), [14, 1, 0])

    def test_the_pages_of_180_holes(self):
        self.open("#open-any", EXAMPLES / "board-180.sheet")
        self.browser.click("#tab-wall")
        self.assertEqual(self.text("#page-count"), "of 269")
        self.browser.click("#page-after")
        self.assertTrue(self.text("#wall").strip().startswith("1  62"))
