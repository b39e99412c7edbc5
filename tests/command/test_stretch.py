"""Cases with a new order of a stretch (02, Paper 10): every place of a sheet against the plain rules, every sentence, and every command
that takes a sheet or a record."""

import json
import re
import unittest
from itertools import permutations

from tests.support import EXAMPLES, plain
from tests.support.command import NINE, SQUARE_POINTS, Folder, Run, binary

from revosti import fresh_marks
from revosti_command.fault import Sight, detail
from revosti_command.lengths import Lengths, measured
from revosti_command.parts import STRETCH, STRETCH_POINT, Record, split
from revosti_command.read import pack
from revosti_command.segment import other_points
from revosti_command.verdict import Verdict, dry

SHEET = (EXAMPLES / "stretch.bin").read_bytes()
PARTS = split(SHEET)
RECORDS = [tuple(record) for record in PARTS.records]
LINE, CASE = (1, 1, 2, 0, 0, 3, 2, 0), (2, 2, 4, 0, 0, 6, 3, 0)


def sheet(u, v, *points, behind=()):
    """The sheet of the example with another new order."""
    chain = [(5, point, 0, 0, 0, 0, 0, 4 + i if i < len(points) else 0) for i, point in enumerate(points, 1)]
    return binary([LINE, CASE, (4, 1, 5, u, v, 0, 4 if points else 0, 0), *chain, *behind], PARTS.points)


def changed(number, **fields):
    """The sheet of the example with other fields in a record."""
    records = [Record(*record) for record in RECORDS]
    records[number - 1] = records[number - 1]._replace(**fields)
    return binary(records, PARTS.points)


def told(data):
    """Number, record and detail that `explain` tells of a file."""
    found = json.loads(Run("explain", "--json", "--form", "binary", data=data).text)
    return found["refusal"], found["record"], found.get("detail")


class Sentences(unittest.TestCase):
    """What is said of each way to go wrong."""

    def test_no_stretch(self):
        for u, v, words in ((4, 4, "Here u and v are both 4."), (4, 3, "3-4 is an edge of K, and no point lies between."),
                            (1, 2, "1-2 is an edge of K, and no point lies between.")):
            self.assertEqual(told(sheet(u, v, 6, 2, 3, 1)), (23, 3, words))

    def test_no_stretch_is_told_before_the_chain(self):
        for record in ((5, 9, 0, 0, 0, 0, 0, 0), (2, 6, 0, 0, 0, 0, 0, 0), (5, 6, 0, 0, 0, 0, 0, 1)):
            data = binary([LINE, CASE, (4, 1, 5, 4, 4, 0, 4, 0), record], PARTS.points)
            self.assertEqual(told(data), (23, 3, "Here u and v are both 4."))

    def test_closed_tour(self):
        records = [(1, 1, 2, 0, 0, 3, 2, 0), (2, 1, 4, 0, 0, 2, 0, 3), (2, 2, 4, 0, 0, 4, 4, 0), (4, 1, 3, 1, 3, 0, 5, 0),
                   (5, 2, 0, 0, 0, 0, 0, 0)]
        for u, v in ((1, 3), (1, 2)):  # not told as neighbours
            records[3] = (4, 1, 3, u, v, 0, 5, 0)
            ways = {3: "1-2-3 and 1-4-3", 2: "1-2 and 1-4-3-2"}[v]
            self.assertEqual(told(binary(records, SQUARE_POINTS)),
                             (23, 4, f"K is a closed tour, and two paths lead from 1 to {v}: {ways}."))

    def test_off_k_and_on_two_paths(self):
        for words, sentence in (("4-2-6", "Point 6 is not in K."), ("7-2-4", "Point 7 is not in K."),
                                ("7-2-6", "Points 7 and 6 are not in K."),
                                ("2-4-5", "K has no path from 2 to 5: 2 lies on 3-2-4-8, 5 on 1-5-9."),
                                ("9-4-8", "K has no path from 9 to 8: 9 lies on 1-5-9, 8 on 3-2-4-8.")):
            text = NINE.read_text().replace("pair 1-9: crossing 4-8, centres 2 5", f"pair 1-9: order {words}")
            found = json.loads(Run("explain", "--json", data=text.encode()).text)
            self.assertEqual((found["refusal"], found["record"], found["detail"]), (23, 10, sentence))

    def test_other_points(self):
        stretch = "The stretch is 4-3-2-1-6-5."
        for points, words in (((), "leaves out 3, 2, 1 and 6."), ((6, 2, 3), "leaves out 1."),
                              ((6, 6, 3, 1), "leaves out 2. {}names 6 more than once."),
                              ((6, 2, 3, 5), "leaves out 1. {}names 5, which is not inside."),
                              ((6, 2, 3, 1, 1), "names 1 more than once."), ((6, 2, 3, 1, 4, 5), "names 4 and 5, which are not inside."),
                              ((6, 2, 3, 1) * 4, "names 1, 2, 3 and 6 more than once.")):
            words = words.replace("{}", "The new order ")
            self.assertEqual(told(sheet(4, 5, *points)), (23, 3, f"{stretch} The new order {words}"))
        self.assertEqual(told(sheet(4, 1, 6, 2, 3, 1)),
                         (23, 3, "The stretch is 4-3-2-1. The new order names 1 and 6, which are not inside."))

    def test_many_points(self):
        found = other_points([1, 2, 3], list(range(2, 150)))
        self.assertEqual(found, "The stretch is 1-2-3. The new order names 3, 4, 5, 6, 7, 8, 9, 10, 11, 12, 13, 14 and so on, "
                                "which are not inside.")

    def test_lengths(self):
        self.assertEqual(told(sheet(4, 5, 3, 2, 1, 6)),
                         (24, 3, "The stretch 4-3-2-1-6-5 is 48 long, the new order 4-3-2-1-6-5 48: as long."))
        self.assertEqual(told(sheet(5, 4, 6, 1, 3, 2)),
                         (24, 3, "The stretch 5-6-1-2-3-4 is 48 long, the new order 5-6-1-3-2-4 49: longer by 1."))
        self.assertEqual(told(sheet(4, 1, 2, 3)), (24, 3, "The stretch 4-3-2-1 is 30 long, the new order 4-2-3-1 31: longer by 1."))

    def test_other_refusals(self):
        for data, number, record, words in (
                (changed(3, c=1), 10, 3, "Here c is 1."), (changed(5, b=1), 10, 5, "Here b is 1."),
                (changed(5, kind=4), 10, 5, "Its kind is 4; its chain takes kind 5."),
                (changed(3, kind=5), 10, 3, "Its kind is 5; its chain takes kind 2, 3 or 4."),
                (changed(1, kind=4), 10, 1, "Its kind is 4; its chain takes kind 1."),
                (changed(6, a=7), 11, 6, "Here a is 7; n is 6."), (changed(3, v=0), 11, 3, "Here v is 0; n is 6."),
                (changed(5, next=5), 9, 5, "Its next index is 5."), (changed(3, d=3), 9, 3, "Its first index is 3."),
                (changed(7, next=8), 8, 7, "Its next index is 8; the sheet has 7 records."),
                (changed(3, d=8), 8, 3, "Its first index is 8; the sheet has 7 records."),
                (changed(3, a=2), 14, 3, "The pair 1-5 is due."),
                (changed(3, next=7), 9, 3, "Its next index is 7.")):
            self.assertEqual(told(data), (number, record, words))

    def test_a_point_in_the_row_of_its_order(self):
        found = Run("explain", data=changed(6, a=7)).text
        self.assertIn("Record 6 is at fault, point 3 of the order of record 3:\n      1  strike 1-2, split at 3\n", found)
        self.assertTrue(found.endswith(">     3      pair 1-5: order 4-6-2-7-1-5\n"))
        text = Run("unpack", data=changed(6, a=7)).text
        self.assertIn("Record 6 is at fault, point 3 of the order of record 3, line 11 of the text:\n",
                      Run("explain", data=text.encode()).text)

    def test_a_point_in_a_row_of_its_own(self):
        found = Run("explain", data=changed(5, b=1)).text
        self.assertIn("Record 5 is at fault:\n", found)
        self.assertIn("      3      pair 1-5: order from 4 to 5\n      4        point 6\n>     5        point 2, b 1\n", found)

    def test_nothing_is_guessed(self):
        verdicts = [(23, 3), (24, 3), (23, 2), (24, 1), (23, 4), (24, 4), (14, 4), (15, 3), (16, 3)]
        for number, record in verdicts:  # made up: the sheet is accepted
            self.assertIsNone(detail(PARTS, self.made_up(number, record)).words, (number, record))
        for data in (changed(5, b=1), changed(7, next=9), changed(4, kind=3), changed(6, a=9)):
            for number in (23, 24):
                self.assertIsNone(detail(split(data), self.made_up(number, 3)).words)

    def made_up(self, number, record):
        """A verdict on the board of the example."""
        return Verdict(number, record, 0, Lengths(6, measured(PARTS)), fresh_marks(6), fresh_marks(6))


class Everywhere(unittest.TestCase):
    """In place of each crossing of the sheet of nine points, a new order between any two points: the marker, the plain rules and the
    sentences agree."""

    def setUp(self):
        self.parts = pack(NINE.read_text()).parts
        self.lengths = Lengths(9, measured(self.parts))
        self.board = plain.Board(self.parts.rule, self.parts.points, ())
        self.at = [k for k, record in enumerate(self.parts.records, 1) if record.kind == 3]

    def judged(self, at, u, v, points):
        """The verdict with a new order in place of a crossing, whose chain stands behind all records, and what is said of it."""
        records, end = list(self.parts.records), len(self.parts.records)
        records[at - 1] = records[at - 1]._replace(kind=STRETCH, u=u, v=v, c=0, d=end + 1 if points else 0)
        chain = [Record(STRETCH_POINT, p, 0, 0, 0, 0, 0, end + i + 1 if i < len(points) else 0) for i, p in enumerate(points, 1)]
        parts = self.parts._replace(records=records + chain)
        found = dry(self.lengths, None, parts)
        words = detail(parts, found).words if found.refusal in (23, 24) else None
        return found.refusal if found.record == at else 0, words

    def edges(self, at):
        """K at a crossing, its own pair in it."""
        return Sight(self.parts.records, self.lengths, b"", at).edges(at)

    def test_every_two_points(self):
        seen = {}
        for at in self.at:
            k = self.edges(at)
            for u in range(1, 10):
                for v in range(1, 10):
                    inner = plain.stretch(k, u, v)
                    number, words = self.judged(at, u, v, inner)
                    self.assertEqual(number, 24 if inner else 23, (at, u, v))
                    old, apart = "-".join(map(str, (u, *inner, v))), ("Point", "K has no path", f"{min(u, v)}-{max(u, v)} is")
                    self.assertTrue(words.startswith(f"The stretch {old} is " if inner else "Here u and v" if u == v else apart), words)
                    seen[number, words.split()[0]] = seen.get((number, words.split()[0]), 0) + 1
        self.assertGreaterEqual(len(seen), 6)

    def test_every_order(self):
        settled = refused = 0
        for at in self.at:
            k = self.edges(at)
            for u, v in ((u, v) for u in range(1, 10) for v in range(1, 10) if len(plain.stretch(k, u, v)) > 1):
                inner = plain.stretch(k, u, v)
                old = self.board.path_length((u, *inner, v))
                for order in permutations(inner):
                    new = self.board.path_length((u, *order, v))
                    number, words = self.judged(at, u, v, order)
                    self.assertEqual(number, 24 if new >= old else 0, (at, u, v, order))
                    if number:
                        more = f"longer by {new - old:,}" if new > old else "as long"
                        self.assertRegex(words, rf" is {old:,} long, .* {new:,}: {more}\.$")
                    settled, refused = settled + (not number), refused + bool(number)
        self.assertGreater(refused, 20)
        self.assertGreater(settled, 1)

    def test_other_points(self):
        for at in self.at[:4]:
            k = self.edges(at)
            u, v = next((u, v) for u in range(1, 10) for v in range(1, 10) if len(plain.stretch(k, u, v)) > 1)
            inner = plain.stretch(k, u, v)
            for points in (inner[1:], inner + inner[:1], inner[1:] + inner[1:2], inner + (v,), ()):
                number, words = self.judged(at, u, v, points)
                self.assertEqual(number, 23)
                self.assertTrue(words.startswith(f"The stretch is {'-'.join(map(str, (u, *inner, v)))}. The new order "), words)


class TwoBoards(Folder):
    """Over two boards the stretch counts low, its new order high."""

    def weights(self, name, **other):
        """A board by weights, the lengths of the example but for some."""
        table = list(measured(PARTS))
        edges = [(a, b) for a in range(1, 7) for b in range(a + 1, 7)]
        for e, length in other.items():
            table[edges.index(tuple(map(int, e[1:])))] = length
        return self.put(name, "DIMENSION : 6\nEDGE_WEIGHT_TYPE : EXPLICIT\nEDGE_WEIGHT_FORMAT : UPPER_ROW\nEDGE_WEIGHT_SECTION\n"
                              f"{' '.join(map(str, table))}\nEOF\n")

    def test_low_and_high(self):
        low, high = self.weights("low.tsp"), self.weights("high.tsp", e46=12)
        sheet = EXAMPLES / "stretch.txt"
        self.assertEqual(Run("explain", "--board", low, sheet, "--high", low).status, 0)
        run = Run("explain", "--board", low, sheet, "--high", high)
        self.assertEqual(run.status, 1)
        self.assertIn("Refused, number 24: The new order of the stretch is not shorter.\n"
                      "The stretch 4-3-2-1-6-5 is 48 long by the low lengths, the new order 4-6-2-3-1-5 48 by the high ones: as long.\n",
                      run.text)

    def test_a_length_that_is_both_counts_as_each(self):
        low, high = self.weights("low.tsp", e23=3), self.weights("high.tsp")
        run = Run("explain", "--board", low, EXAMPLES / "stretch.txt", "--high", high)
        self.assertIn(" is 47 long by the low lengths, the new order 4-6-2-3-1-5 47 by the high ones: as long.\n", run.text)
        self.assertEqual(Run("explain", "--board", low, EXAMPLES / "stretch.txt").status, 0)


class Commands(Folder):
    """Every command that takes a sheet takes one with a new order."""

    def setUp(self):
        super().setUp()
        self.board, self.sheet = EXAMPLES / "stretch.tsp", EXAMPLES / "stretch.txt"
        self.marks = self.folder / "a.marks"
        Run("fresh", self.board, "--marks", self.marks)

    def test_examples(self):
        self.assertEqual(Run("pack", "--board", self.board, self.sheet).out, SHEET)
        self.assertEqual(Run("unpack", "--records", data=SHEET).text, "".join(self.sheet.read_text().splitlines(keepends=True)[1:]))
        for name, number, words in (("stretch", 0, "Edge 1-2 is struck"),
                                    ("stretch_point_twice", 23, "leaves out 2. The new order names 6 more"),
                                    ("stretch_not_shorter", 24, " 48: as long.")):
            run = Run("explain", EXAMPLES / f"{name}.bin")
            self.assertEqual(run.status, int(number > 0))
            self.assertIn(f"Refused, number {number}: " if number else "Verdict 0: ", run.text)
            self.assertIn(words, run.text)

    def test_a_three_optimal_tour_loses_an_edge(self):
        run = Run("mark", "--board", self.board, self.sheet, "--marks", self.marks)
        self.assertEqual(run.all, (0, "1 line is accepted. Struck: 1 edge. Pending: 0 edges. Open: 14 edges.\n", ""))
        for tour, length, open_ in (("1,2,3,4,5,6", 56, False), ("1,3,2,6,4,5", 55, True)):
            found = json.loads(Run("tour", self.board, tour, "--marks", self.marks, "--json").text)
            self.assertEqual((found["length"], found["open"]), (length, open_))

    def test_asked(self):
        run = Run("ask", "--board", self.board, self.sheet, "--marks", self.marks)
        self.assertEqual(run.all, (0, "1 line is accepted. Struck: 0 edges. Pending: 1 edge. Open: 14 edges.\n", ""))
        self.assertEqual(Run("confirm", "--marks", self.marks).text, "Struck: 1 edge. Pending: 0 edges. Open: 14 edges.\n")

    def test_refused_in_the_same_words(self):
        for name, words in (("stretch_point_twice", "The stretch is 4-3-2-1-6-5. The new order leaves out 2."),
                            ("stretch_not_shorter", "48: as long.")):
            for command in ("explain", "mark", "ask", "slip"):
                run = Run(command, EXAMPLES / f"{name}.bin", "--marks", self.marks)
                self.assertEqual((run.status, run.err), (1, ""))
                self.assertIn(words, run.text)
        self.assertIn("The examiner sees 24 0 3 0 0 0: refused by 24, record 3, 0 lines accepted. "
                      "The new order of the stretch is not shorter.\n", run.text)

    def test_at_the_desks(self):
        hall = self.folder / "hall"
        Run("desks", hall, "open", self.board)
        for desk, name in enumerate(("stretch", "stretch_point_twice", "stretch_not_shorter"), 1):
            self.assertEqual(Run("desks", hall, "hand-in", desk, EXAMPLES / f"{name}.bin").status, 0)
        found = Run("desks", hall, "all").text
        for words in ("Desk 1: the sheet is accepted, 1 line.", "Desk 2: Refused, number 23: ", "leaves out 2.",
                      "Desk 3: Refused, number 24: ", ": as long."):
            self.assertIn(words, found)

    def test_pairs(self):
        self.assertEqual(Run("pairs", EXAMPLES / "stretch.bin", "--record", 2).text,
                         "1 pair stands at 6 under 1-2, 2-3, 3-4.\npair 1-5\n")
        for record, words in ((3, "record 3 has a new order, and no split"),
                              (5, "record 5 is a point of the order of record 3, and no case")):
            self.assertEqual(Run("pairs", EXAMPLES / "stretch.bin", "--record", record).all, (2, "", f"revosti: --record: {words}\n"))

    def test_due_behind_an_order(self):
        records = [LINE, CASE, RECORDS[2][:7] + (8,), *RECORDS[3:], (3, 2, 5, 1, 2, 3, 4, 0)]
        self.assertEqual(told(binary(records, PARTS.points)),
                         (14, 8, "No pair is due any more: the chain has named all standing pairs."))

    def test_help(self):
        self.assertIn("of a new order, the stretch and, thinner, its points in the new order",
                      re.sub(r"\s+", " ", Run("draw", "--help").text))
