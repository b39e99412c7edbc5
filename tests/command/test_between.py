"""revosti mark --high and revosti pairs, over the library."""


from tests.support import ROOT
from tests.support.command import SQUARE_POINTS, SQUARE_RECORDS, Folder, Run, binary
from tests.support.packing import packed

import revosti

PAGE = (ROOT / "docs/FORMATS.md").read_text(encoding="utf-8")


class Command(Folder):
    """The square with a side of 10, and up to 13 or 14."""

    def setUp(self):
        super().setUp()
        self.low, self.marks = self.board("square", SQUARE_POINTS, SQUARE_RECORDS), self.put("a.marks", packed([1] * 6))
        self.narrow, self.wide = (self.board(f"high{side}", [(x // 10 * side, y // 10 * side) for x, y in SQUARE_POINTS])
                                  for side in (13, 14))

    def board(self, name, points, lines=(), rule=1):
        """A file with a board."""
        return self.put(name, binary(lines, points, rule))

    def call(self, *words):
        """Status, output and complaint of a command."""
        return Run(*words).all

    def mark(self, low, high):
        """The same of marking between two boards."""
        return self.call("mark", low, "--high", high, "--marks", self.marks)

    def test_mark(self):
        said = "2 lines are accepted. Struck: 2 edges. Pending: 0 edges. Open: 4 edges.\n"
        self.assertEqual(self.mark(self.low, self.narrow), (0, said, ""))
        self.assertEqual(self.marks.read_bytes(), packed([1, 0, 1, 1, 0, 1]))

    def test_mark_refused(self):
        five = self.board("five", [*SQUARE_POINTS, (5, 5)])
        ruled, far = self.board("ruled", SQUARE_POINTS, rule=9), self.board("far", [*SQUARE_POINTS[:3], (0, 2_000_000)])
        cut = self.folder / "cut"
        cut.write_bytes(self.low.read_bytes()[:20])
        for low, high, said in ((self.narrow, self.low, (25, "")), (self.low, five, (2, "")),
                                (self.low, ruled, (3, f"--high {ruled}: ")), (ruled, self.low, (3, f"{ruled}: ")),
                                (self.low, far, (4, f"--high {far}: ")), (self.low, cut, (7, f"--high {cut}: "))):
            number, where = said
            status, out, err = self.mark(low, high)
            self.assertEqual((status, bool(where)), (1, bool(err)))
            self.assertTrue((err or f"revosti: {out}").startswith(f"revosti: {where}Refused, number {number}: {revosti.meaning(number)}"),
                            out + err)
            self.assertEqual(self.marks.read_bytes(), packed([1] * 6))

    def test_mark_stops(self):
        status, out, _ = self.mark(self.low, self.wide)
        self.assertEqual((status, self.marks.read_bytes()), (1, packed([1] * 6)))
        self.assertIn("The pair 1-4 is due, and 1 more after it: 3-4. Its split has no cases.\nNo line is accepted.\n", out)

    def test_pairs(self):
        for words, said in (((1, 3, 2), "No pair stands at 2 under 1-3.\n"),
                            ((3, 1, 2, "--high", self.narrow), "No pair stands at 2 under 1-3.\n"),
                            ((3, 1, 2, "--high", self.wide), "2 pairs stand at 2 under 1-3.\npair 1-4\npair 3-4\n"),
                            ((1, 2, 3), "2 pairs stand at 3 under 1-2.\npair 1-4\npair 2-4\n")):
            self.assertEqual(self.call("pairs", self.low, *words), (0, said, ""))

    def test_pairs_of_a_set(self):
        self.marks.write_bytes(packed([1, 0, 2, 1, 1, 1]))
        for high in ((), ("--high", self.wide)):
            self.assertEqual(self.call("pairs", self.low, 1, 2, 3, "--marks", self.marks, *high),
                             (0, "1 pair stands at 3 under 1-2.\npair 2-4\n", ""))
            self.assertEqual(self.call("pairs", self.low, 1, 3, 2, "--marks", self.marks, *high),
                             (1, "", f"revosti: Refused, number 12: {revosti.meaning(12)}\n"))
        self.marks.write_bytes(b"\xff\x0f")
        self.assertEqual(self.call("pairs", self.low, 1, 2, 3, "--marks", self.marks),
                         (2, "", f"revosti: {self.marks}: expected 0, 1 or 2 as the mark of 1-2, found 3\n"))

    def test_pairs_refused(self):
        for words, number, more in (((self.low, 1, 1, 2), 11, " Here A and B are both 1."),
                                    ((self.low, 1, 5, 2), 11, " Here B is 5; n is 4."),
                                    ((self.low, 1, 2, 0), 11, " Here C is 0; n is 4."),
                                    ((self.narrow, 1, 2, 3, "--high", self.low), 25, "")):
            self.assertEqual(self.call("pairs", *words), (1, "", f"revosti: Refused, number {number}: {revosti.meaning(number)}{more}\n"))

    def test_page(self):
        said = [self.call("pairs", self.low, 1, 3, 2, "--high", self.wide)[1], self.mark(self.low, self.narrow)[1]]
        for text in said:
            self.assertTrue(f"\n```\n{text}```\n" in PAGE, text)
