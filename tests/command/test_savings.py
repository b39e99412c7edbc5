"""revosti saving over the library: the saving, the sums that show it, what it means; and what explain tells of a
refusal 16."""

import random
import re
import unittest
from itertools import combinations, product

from tests.support import ROOT
from tests.support.command import NINE, SQUARE_POINTS, Folder, Run

import revosti
from revosti_command.explain import explain
from revosti_command.fault import Sight
from revosti_command.parts import CROSSING, Parts, join
from revosti_command.lengths import Lengths, measured
from revosti_command.read import Sheet, pack
from revosti_command.saving import tell
from revosti_command.verdict import Verdict, dry

PAGE = (ROOT / "docs/FORMATS.md").read_text(encoding="utf-8")
SQUARE = Parts(1, 4, SQUARE_POINTS, [], b"")
SIX = re.search(r"^```\n(# six points.*?)^```$", PAGE, re.S | re.M)[1]

TELLS = {
    ("exchange", 1, 3, 4, 2): """
Exchanging 1-3 and 2-4 saves 8.
Taken out: 1-3 and 2-4, 14 + 14 = 28. Put in: 1-4 and 2-3, 10 + 10 = 20. Saved: 28 - 20 = 8.
Taken out: 1-3 and 2-4, 14 + 14 = 28. Put in: 1-2 and 3-4, 10 + 10 = 20. Saved: 28 - 20 = 8.
The smaller one counts.
Above 0: the two edges are not compatible.
""",
    ("exchange", 1, 2, 3, 4): """
Exchanging 1-2 and 3-4 saves -8.
Taken out: 1-2 and 3-4, 10 + 10 = 20. Put in: 1-3 and 2-4, 14 + 14 = 28. Saved: 20 - 28 = -8.
Taken out: 1-2 and 3-4, 10 + 10 = 20. Put in: 1-4 and 2-3, 10 + 10 = 20. Saved: 20 - 20 = 0.
The smaller one counts.
Not above 0: the two edges are compatible.
""",
    ("exchange", 1, 2, 2, 3): """
Exchanging 1-2 and 2-3 saves 0.
Taken out: 1-2 and 2-3, 10 + 10 = 20. Put in: 1-2 and 2-3, 10 + 10 = 20. Saved: 20 - 20 = 0.
Taken out: 1-2 and 2-3, 10 + 10 = 20. Put in: 1-3 and 2-2, 14 + 0 = 14. Saved: 20 - 14 = 6.
The smaller one counts.
Not above 0: the two edges are compatible.
""",
    ("move", 3, 1, 4, 1, 2): """
Moving 3 from between 1 and 4 to between 1 and 2 saves 0.
Taken out: 1-3, 3-4 and 1-2, 14 + 10 + 10 = 34. Put in: 1-4, 1-3 and 2-3, 10 + 14 + 10 = 34. Saved: 34 - 34 = 0.
Not above 0: where K with a pair has 1-3, 3-4 and 1-2, this move does not shut the pair out (condition 5).
""",
    ("move", 3, 1, 4, 3, 2): """
Moving 3 from between 1 and 4 to between 3 and 2 saves 14.
Taken out: 1-3, 3-4 and 2-3, 14 + 10 + 10 = 34. Put in: 1-4, 3-3 and 2-3, 10 + 0 + 10 = 20. Saved: 34 - 20 = 14.
Above 0: but condition 5 asks for two edges at 3, and for an edge without 3.
""",
    ("move", 1, 3, 3, 2, 4): """
Moving 1 from between 3 and 3 to between 2 and 4 saves 22.
Taken out: 1-3, 1-3 and 2-4, 14 + 14 + 14 = 42. Put in: 3-3, 1-2 and 1-4, 0 + 10 + 10 = 20. Saved: 42 - 20 = 22.
Above 0: but condition 5 asks for two edges at 1, and for an edge without 1.
""",
}

# A saw: 5 lies near 3-4 and far from 1 and 2.
SAW = Parts(1, 5, [(0, 0), (20, 0), (0, 100), (20, 100), (10, 101)], [], b"")
SAW_MOVE = """
Moving 5 from between 1 and 2 to between 4 and 3 saves 182.
Taken out: 1-5, 2-5 and 3-4, 101 + 101 + 20 = 222. Put in: 1-2, 4-5 and 3-5, 20 + 10 + 10 = 40. Saved: 222 - 40 = 182.
Above 0: where K with a pair has 1-5, 2-5 and 3-4, this move shuts the pair out (condition 5).
"""


def told(parts, test, *points):
    """What the command says, with a newline before and after."""
    return f"\n{tell(Lengths(parts.n, measured(parts)), test, list(points))}\n"


def sentences(text):
    """The saving of the first sentence, and the sums of each step: taken out, put in, saved, each as the numbers of its
    sum."""
    saving = int(re.match(r".* saves (-?\d+)\.\n", text)[1])
    return saving, [[list(map(int, re.findall(r"-?\d+", part))) for part in step] for step in re.findall(
        r"^Taken out: [^.]*, (\d[\d +]* = \d+)\. Put in: [^.]*, (\d[\d +]* = \d+)\. Saved: (.*)\.$", text, re.M)]


class Told(unittest.TestCase):
    def test_square(self):
        for (test, *points), words in TELLS.items():
            self.assertEqual(told(SQUARE, test, *points), words)

    def test_moved_point(self):
        self.assertEqual(told(SAW, "move", 5, 1, 2, 4, 3), SAW_MOVE)

    def test_crossing_of_formats(self):
        parts = pack(SIX).parts
        for ends in ((1, 3, 3, 5), (3, 1, 3, 5), (1, 3, 5, 3), (3, 1, 5, 3)):
            found = told(parts, "crossing", 1, 4, 2, 6, *ends)
            self.assertIn(f"\n```{found}```\n", PAGE)
        self.assertTrue(found.endswith("\nAbove 0: as a crossing of K, it settles its case.\n"))

    def test_crossing_that_does_not_settle(self):
        found = told(pack(SIX).parts, "crossing", 2, 3, 1, 6, 2, 4, 3, 5)
        self.assertEqual(sentences(found.strip())[0], -17)
        self.assertTrue(found.endswith("\nNot above 0: as a crossing of K, it is refused by 16.\n"))


class Sums(unittest.TestCase):
    """The sums that are shown are those of the table, and give the saving of the library."""

    CALLS = {"exchange": (revosti.exchange_saving, 4, 2), "move": (revosti.move_saving, 5, 1), "crossing": (revosti.crossing_saving, 8, 2)}

    def names(self, text):
        """The edges that each step names: taken out, put in."""
        return [[re.findall(r"\d+-\d+", part) for part in step]
                for step in re.findall(r"^Taken out: ([^.]*)\. Put in: ([^.]*)\.", text, re.M)]

    def test_random_boards(self):
        r, seen = random.Random(5), set()
        for _ in range(300):
            n, most = r.randint(4, 9), r.choice((3, 50, 10**6))
            parts = Parts(r.randint(1, 5), n, [(r.randint(0, most), r.randint(0, most)) for _ in range(n)], [], b"")
            table = revosti.measure(n, parts.rule, parts.points)
            length = {f"{a}-{b}": table[revosti.place(n, a, b)] for a, b in combinations(range(1, n + 1), 2)}
            length.update({f"{a}-{a}": 0 for a in range(1, n + 1)})
            for test, (call, count, steps) in self.CALLS.items():
                points = [r.randint(1, n) for _ in range(count)]
                try:
                    wanted = call(n, table, *points)
                except revosti.Refusal:
                    continue
                text = told(parts, test, *points).strip()
                self.agree(text, wanted, steps, length)
                self.assertIn("\nAbove 0: " if wanted > 0 else "\nNot above 0: ", text)
                seen.add((test, (wanted > 0) - (wanted < 0)))
        self.assertEqual(len(seen), 9)

    def agree(self, text, wanted, steps, length):
        """A text shows this saving, by so many steps, with these lengths."""
        saving, shown = sentences(text)
        self.assertEqual((saving, len(shown)), (wanted, steps), text)
        for (out, put, saved), names in zip(shown, self.names(text)):
            self.assertEqual([[length[name] for name in part] for part in names], [out[:-1], put[:-1]], text)
            self.assertEqual((sum(out[:-1]), sum(put[:-1])), (out[-1], put[-1]), text)
            self.assertEqual(saved, [out[-1], put[-1], out[-1] - put[-1]], text)
        self.assertEqual(min(saved[2] for _, _, saved in shown), wanted, text)
        self.assertEqual("The smaller one counts." in text, steps == 2)


class Command(Folder):
    def setUp(self):
        super().setUp()
        self.board = self.put("board.txt", SIX)

    def run_saving(self, *words, data=b""):
        """Status, output and complaint of the command."""
        return Run("saving", *words, data=data).all

    def test_both_forms_of_a_board(self):
        binary = self.folder / "board.sheet"
        binary.write_bytes(join(pack(SIX).parts))
        found = [self.run_saving(file, "crossing", 1, 4, 2, 6, 1, 3, 3, 5) for file in (self.board, binary)]
        found += [self.run_saving("-", "crossing", 1, 4, 2, 6, 1, 3, 3, 5, data=file.read_bytes()) for file in (self.board, binary)]
        self.assertEqual(found, [(0, told(pack(SIX).parts, "crossing", 1, 4, 2, 6, 1, 3, 3, 5)[1:], "")] * 4)

    def test_options_anywhere(self):
        out = self.folder / "out"
        wanted = told(pack(SIX).parts, "move", 6, 1, 2, 4, 5)[1:]
        for words in ((self.board, "move", 6, 1, 2, 4, 5, "--form", "text", "-o", out),
                      ("--form", "text", self.board, "-o", out, "move", "06", 1, 2, 4, 5)):
            out.write_bytes(b"old")
            self.assertEqual((self.run_saving(*words), out.read_text()), ((0, "", ""), wanted))

    def test_records_are_not_read(self):
        self.board.write_text(SIX.replace("strike 2-3", "strike 9-9"))
        self.assertEqual(self.run_saving(self.board, "exchange", 1, 2, 3, 4)[0], 0)

    def test_refusals(self):
        eleven = "Refused, number 11: A point is outside 1 to n, or a = b; for a saving also, both ends of an edge taken out are the same."
        for words, more in ((("exchange", 1, 7, 2, 3), " Here Q is 7; n is 6."), (("exchange", 1, 2, 0, 3), " Here X is 0; n is 6."),
                            (("exchange", 1, 2, 3, 3), ""), (("move", 1, 1, 2, 3, 4), ""),
                            (("move", 65535, 1, 2, 3, 4), " Here C is 65535; n is 6."),
                            (("crossing", 1, 2, 3, 4, 3, 1, 2, 1), "")):
            self.assertEqual(self.run_saving(self.board, *words), (1, "", f"revosti: {eleven}{more}\n"), words)

    def test_boards_that_are_refused(self):
        whole = join(pack(SIX).parts)
        for data, number in ((whole[:30], 7), (whole[:7], 7), (b"", 7), (b"\6" + whole[1:], 3), (whole[:4] + b"\3" + whole[5:], 1),
                             (whole[:8] + b"\xff\xff\xff\xff" + whole[12:], 4)):
            status, said, complaint = self.run_saving("--form", "binary", "-", "exchange", 0, 0, 0, 0, data=data)
            self.assertEqual((status, said), (1, ""))
            self.assertIn(f"revosti: standard input: Refused, number {number}: ", complaint)

    def test_broken_records_are_no_matter(self):
        data = join(pack(SIX).parts)[:-1]
        self.assertEqual(self.run_saving("-", "exchange", 1, 2, 3, 4, data=data)[0], 0)


class Explain(unittest.TestCase):
    """A refusal 16 is told with its saving."""

    def refused(self, parts):
        """The refusal number and record of a sheet marked from fresh marks, and the table."""
        table = measured(parts)
        found = dry(Lengths(parts.n, table), None, parts)
        return found.refusal, found.record, table

    def explained(self, parts, record):
        """The sentence about the saving, or None."""
        fresh = bytes(revosti.fresh_marks(parts.n))
        text = explain(Sheet(parts, []), Verdict(16, record, 0, Lengths(parts.n, measured(parts)), fresh, fresh))
        found = re.search(r"^Refused, number 16: No labelling of the crossing saves on both moves\.\nIts best labelling saves (.*)\.$",
                          text,
                          re.M)
        return int(found[1]) if found else None

    def test_six_points(self):
        parts = pack(SIX.replace("crossing 1-4, centres 2 6", "crossing 2-3, centres 1 6")).parts
        number, record, table = self.refused(parts)
        self.assertEqual((number, record), (16, 4))
        self.assertEqual(revosti.crossing_saving(6, table, 2, 3, 1, 6, 2, 4, 3, 5), -17)
        self.assertEqual(self.explained(parts, 4), -17)
        self.assertIn("saves on both moves.\nIts best labelling saves -17.\n```\n", PAGE)

    def test_a_crossing_that_saves_is_no_fault(self):
        self.assertIsNone(self.explained(pack(SIX).parts, 4))

    def test_other_records(self):
        for record in (1, 2, 3):
            self.assertIsNone(self.explained(pack(SIX).parts, record))
        for words in ("crossing 1-5, centres 2 6", "crossing 1-4, centres 2 5", "crossing 1-4, centres 2 2", "crossing 1-4, centres 9 6"):
            self.assertIsNone(self.explained(pack(SIX.replace("crossing 1-4, centres 2 6", words)).parts, 4))

    def test_every_crossing_of_nine_points(self):
        parts, seen = pack(NINE.read_text()).parts, {}
        for at in [k for k, record in enumerate(parts.records, 1) if record.kind == CROSSING]:
            for (u, v), (c, d) in product(Sight(parts.records, Lengths(9, []), b"", at).edges(at), combinations(range(1, 10), 2)):
                records = list(parts.records)
                records[at - 1] = records[at - 1]._replace(u=v, v=u, c=c, d=d)
                changed = parts._replace(records=records)
                number, saving = self.refused(changed)[0], self.explained(changed, at)
                seen[number] = seen.get(number, 0) + 1
                self.assertEqual(saving is not None and saving <= 0, number == 16)
                self.assertEqual(saving is None, number != 16)
        self.assertEqual(set(seen), {0, 15, 16})
        self.assertGreater(seen[16], 20)
