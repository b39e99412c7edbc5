"""tell: the sentences of each line of a sheet over the marks that it finds, one pair's, as JSON; refused lines in the words of explain; and
pictures of one reason of each kind."""

import json
import unittest
from array import array
from xml.etree import ElementTree
from test_draw import SVG, Picture

from tests.support import EXAMPLES
from tests.support.command import NINE, SQUARE_POINTS, Folder, Run, binary
from tests.support.packing import packed

from revosti import tell_line
from revosti_command.edges import edges
from revosti_command.lengths import Lengths, measured
from revosti_command.parts import split
from revosti_command.reason import sketch
from revosti_command.telling import KINDS, Reason, Telling, read, tell
from revosti_command.verdict import Verdict

REASONS = EXAMPLES / "reasons.txt"
FIRST = """Exchanging 2-4 and 1-3 saves 8 and shuts out 1 and 2 as neighbours of 4.
Loop 1-3-4 shuts out 1 and 3 as neighbours of 4.
Moving 1 between 4 and 5 saves 4 and shuts out 1 and 5 as neighbours of 4.
Exchanging 2-4 and 1-3 saves 8 and shuts out 2 and 3 as neighbours of 4.
Exchanging 2-4 and 1-3 saves 8 and shuts out 2 and 5 as neighbours of 4.
Further split at 1 settles 3 and 5 as neighbours of 4.
"""
SECOND = """Struck edge 1-3 shuts out 2 and 3 as neighbours of 1.
Loop 1-2-4 shuts out 2 and 4 as neighbours of 1.
Further split at 3 settles 2 and 5 as neighbours of 1.
Struck edge 1-3 shuts out 3 and 4 as neighbours of 1.
Struck edge 1-3 shuts out 3 and 5 as neighbours of 1.
Moving 1 between 2 and 4 saves 4 and shuts out 4 and 5 as neighbours of 1.
"""
THIRD = """Third edge at 2 shuts out 1 and 3 as neighbours of 2.
Struck edge 2-4 shuts out 1 and 4 as neighbours of 2.
Further split at 1 settles 1 and 5 as neighbours of 2.
Struck edge 2-4 shuts out 3 and 4 as neighbours of 2.
Further split at 1 settles 3 and 5 as neighbours of 2.
Struck edge 2-4 shuts out 4 and 5 as neighbours of 2.
"""
# What the eight kinds of sentences name, before the pair 3, 8 at 5.
EIGHT = [("struck", [3, 5], None, "Struck edge 3-5 shuts out"), ("third", [5], None, "Third edge at 5 shuts out"),
         ("loop", [3, 5, 8], None, "Loop 3-5-8 shuts out"), ("exchange", [3, 5, 1, 2], 12, "Exchanging 3-5 and 1-2 saves 12 and shuts out"),
         ("move", [5, 1, 2], 7, "Moving 5 between 1 and 2 saves 7 and shuts out"),
         ("crossing", [1, 2, 3, 8], 3, "Crossing 1-2 with centres 3 and 8 saves 3 and settles"),
         ("split", [9], None, "Further split at 9 settles"), ("order", [1, 4, 3, 9], 5, "New order 1-4-3-9 saves 5 and settles")]


class Lines(Folder):
    """Each line over the marks that it finds."""

    def set_of(self, *marked):
        """A set of five points with some edges marked: (edge, mark)."""
        found = dict(marked)
        return self.put("a.marks", packed([found.get(e, 1) for e in edges(5)]))

    def test_each_line(self):
        for words, told in (((), FIRST), (("--record", 1), FIRST), (("--record", 3), SECOND), (("--record", 5), THIRD)):
            self.assertEqual(Run("tell", REASONS, *words).all, (0, told, ""))

    def test_the_set_stays(self):
        file = self.set_of(((2, 4), 0))
        before = file.read_bytes()
        self.assertEqual(Run("tell", REASONS, "--marks", file).text, FIRST.replace("Exchanging 2-4 and 1-3 saves 8 and", "Struck edge 2-4"))
        self.assertEqual(Run("tell", REASONS, "--record", 3, "--marks", file).status, 1)
        self.assertEqual(file.read_bytes(), before)

    def test_a_pending_edge_is_struck(self):
        for mark in (0, 2):
            self.assertEqual(Run("tell", REASONS, "--only", "2-5", "--marks", self.set_of(((2, 4), mark))).text,
                             "Struck edge 2-4 shuts out 2 and 5 as neighbours of 4.\n")
            self.assertEqual(Run("tell", REASONS, "--record", 3, "--only", "2-4", "--marks", self.set_of(((1, 4), mark))).text,
                             "Struck edge 1-4 shuts out 2 and 4 as neighbours of 1.\n")

    def test_board_beside(self):
        for board in ("square.tsp", "square_weights.tsp"):
            run = Run("tell", "--board", EXAMPLES / board, EXAMPLES / "square.txt", "--record", 2)
            self.assertEqual((run.status, run.text.splitlines()[0]), (0, "Struck edge 1-3 shuts out 2 and 3 as neighbours of 1."))

    def test_standard_input_and_a_file(self):
        out = self.folder / "told.txt"
        self.assertEqual(Run("tell", "-o", out, data=REASONS.read_bytes()).all, (0, "", ""))
        self.assertEqual(out.read_text(), FIRST)

    def test_a_line_outside_the_chain(self):
        """It is told over the set itself."""
        records = [(1, 1, 3, 0, 0, 2, 0, 0), (1, 2, 4, 0, 0, 1, 0, 0)]
        told = Run("tell", "--record", 2, data=binary(records)).text
        self.assertEqual(told.splitlines()[0], "Exchanging 1-3 and 2-4 saves 8 and shuts out 2 and 3 as neighbours of 1.")

    def test_a_next_index_is_not_read(self):
        for index in (1, 9, 65535):
            self.assertEqual(Run("tell", data=binary([(1, 1, 3, 0, 0, 2, 0, index)])).status, 0)

    def test_every_line_of_nine_points(self):
        parts = split(Run("pack", NINE).out)
        lines = [number for number, record in enumerate(parts.records, 1) if record.kind == 1]
        self.assertGreater(len(lines), 20)
        for number in lines:
            run = Run("tell", NINE, "--record", number)
            self.assertEqual((run.status, len(run.text.splitlines())), (0, 28), number)


class Only(unittest.TestCase):
    def test_both_orders_and_forms(self):
        for pair in ("3-5", "5-3", "3,5", "5,3", "03-5"):
            self.assertEqual(Run("tell", REASONS, "--only", pair).all, (0, FIRST.splitlines(keepends=True)[-1], ""))

    def test_no_such_pair(self):
        for pair in ("4-1", "1-4", "3-3", "1-6", "0-1"):
            self.assertEqual(Run("tell", REASONS, "--only", pair).all,
                             (2, "", f"revosti: --only: expected two points of the board beside the split point 4, found {pair}\n"))

    def test_no_pair(self):
        for pair, words in (("3", 'expected a pair of points, as 3-8 or 3,8, found "3"'), ("1-2-3", 'found "1-2-3"'), ("", 'found ""'),
                            ("1-x", 'expected a point, found "x"'), ("1--2", 'found "1--2"'),
                            ("1-70000", "expected a point from 0 to 65535")):
            run = Run("tell", REASONS, f"--only={pair}")
            self.assertEqual((run.status, run.out), (2, b""))
            self.assertIn(words, run.err)


class Json(unittest.TestCase):
    def test_accepted(self):
        found = json.loads(Run("tell", REASONS, "--record", 3, "--json").text)
        reasons = found.pop("reasons")
        self.assertEqual(found, {"refusal": 0, "record": 3, "edge": [2, 4], "split": 1})
        self.assertEqual([reason["sentence"] for reason in reasons], SECOND.splitlines())
        self.assertEqual([reason["pair"] for reason in reasons], [[2, 3], [2, 4], [2, 5], [3, 4], [3, 5], [4, 5]])
        self.assertEqual([reason["kind"] for reason in reasons], ["struck", "loop", "split", "struck", "struck", "move"])
        first = {"pair": [2, 3], "kind": "struck", "points": [1, 3], "saving": None, "sentence": SECOND.splitlines()[0]}
        self.assertEqual(reasons[0], first)
        self.assertEqual((reasons[5]["points"], reasons[5]["saving"]), ([1, 2, 4], 4))

    def test_one_pair(self):
        reasons = json.loads(Run("tell", REASONS, "--only", "1-2", "--json").text)["reasons"]
        self.assertEqual([(r["kind"], r["points"], r["saving"]) for r in reasons], [("exchange", [2, 4, 1, 3], 8)])

    def test_each_kind(self):
        for kind, points, saving, words in EIGHT:
            sentence = f"{words} 3 and 8 as neighbours of 5."
            self.assertEqual(read((3, 8), sentence), ((3, 8), kind, points, saving, sentence))
        self.assertEqual(sorted(kind for kind, *_ in EIGHT), sorted(KINDS.values()))

    def test_the_example_has_six_kinds(self):
        kinds = {r["kind"] for number in (1, 3, 5) for r in json.loads(Run("tell", REASONS, "--record", number, "--json").text)["reasons"]}
        self.assertEqual(kinds, {"struck", "third", "loop", "exchange", "move", "split"})


class Refused(unittest.TestCase):
    """In the words of explain."""

    def test_words_of_explain(self):
        for name in ("case_missing.bin", "no_records.bin", "record_broken.bin", "stretch_not_shorter.bin"):
            told, explained = (Run(command, EXAMPLES / name) for command in ("tell", "explain"))
            with self.subTest(name):
                self.assertEqual((told.status, told.err), (1, ""))
                self.assertTrue(told.text.startswith("Refused, number "), told.text)
                self.assertTrue(explained.text.endswith(told.text), told.text)
                self.assertEqual(Run("tell", EXAMPLES / name, "--json").text, Run("explain", EXAMPLES / name, "--json").text)

    def test_a_later_line(self):
        data = binary([(1, 1, 3, 0, 0, 2, 0, 2), (1, 1, 2, 0, 0, 3, 0, 0)])
        run = Run("tell", "--record", 2, data=data)
        self.assertEqual(run.status, 1)
        self.assertTrue(Run("explain", data=data).text.endswith(run.text))
        self.assertIn("The pair 2-4 is due. Its split has no cases.\n1 line before it is accepted.\n", run.text)

    def test_a_line_before_is_refused(self):
        for second in (1, 1, 3, 0, 0, 2, 0, 0), (1, 1, 1, 0, 0, 2, 0, 0):
            data = binary([(1, 1, 2, 0, 0, 3, 0, 2), second])
            run = Run("tell", "--record", 2, data=data)
            self.assertEqual((run.status, run.text), (1, Run("tell", data=data).text))
            self.assertIn("Record 1 is at fault:\n>     1  strike 1-2, split at 3\n", run.text)

    def test_struck_already(self):
        data = binary([(1, 1, 3, 0, 0, 2, 0, 2), (1, 3, 1, 0, 0, 2, 0, 0)])
        self.assertIn("Refused, number 12: The edge is struck already.\nRecord 1 strikes it.\n", Run("tell", "--record", 2, data=data).text)

    def test_no_line(self):
        case, none = "Record {} has kind 2; a line has kind 1.\n", "The sheet has 7 records, and none is number {}.\n"
        for number, refusal, record, words in ((2, 10, 2, case), (7, 10, 7, case), (0, 8, 0, none), (8, 8, 0, none)):
            run = Run("tell", REASONS, "--record", number)
            self.assertEqual((run.status, run.out), (1, b""))
            self.assertTrue(run.err.startswith(f"revosti: Refused, number {refusal}{', record ' * bool(record)}{record or ''}: "), run.err)
            self.assertTrue(run.err.endswith(words.format(number)), run.err)
            found = json.loads(Run("tell", REASONS, "--record", number, "--json").text)
            self.assertEqual((found["refusal"], found["record"]), (refusal, record))

    def test_no_board(self):
        run = Run("tell", EXAMPLES / "three_points.bin")
        self.assertEqual((run.status, run.out), (1, b""))
        self.assertIn("Refused, number 1: n is outside 4 to 180. Here n is 3.", run.err)


class Pictures(unittest.TestCase):
    """One reason of each kind."""

    GROUPS = ("k", "pair", "put", "gap", "fault")

    def picture(self, *words):
        run = Run("draw", REASONS, *words)
        self.assertEqual((run.status, run.err), (0, ""))
        return Picture(run.out)

    def drawn(self, picture, group):
        """The edges of a group, by the holes that they end at."""
        spots = {spot: hole for hole, spot in enumerate(picture.spots(), 1)}
        pieces = [piece for fan in picture.groups[group] for piece in fan.get("d").split("M")[1:]]
        return sorted(tuple(sorted(spots[tuple(map(int, end.split()))] for end in piece.split("L"))) for piece in pieces)

    def test_each_kind(self):
        for words, sentence, wanted, rows, spot in (
                (("--reason", "1-2"), FIRST, [[(1, 3)], [(1, 4), (2, 4)], [(1, 2), (3, 4)], [(1, 3), (2, 4)]],
                 ["out: 2-4 and 1-3", "in: 1-2 and 3-4"], 0),
                (("--reason", "3,1"), FIRST, [[(1, 3)], [(1, 4), (3, 4)], [], [(1, 3), (1, 4), (3, 4)]], ["loop 1-3-4"], 0),
                (("--reason", "1-5"), FIRST, [[(1, 3)], [(1, 4), (4, 5)], [(1, 4), (1, 5), (3, 4)], [(1, 3), (1, 4), (4, 5)]],
                 ["out: 1-3, 1-4 and 4-5", "in: 3-4, 1-4 and 1-5", "1 moves"], 1),
                (("--reason", "3-5"), FIRST, [[(1, 3)], [(3, 4), (4, 5)], [], []], ["further split at 1"], 1),
                (("--record", 3, "--reason", "2-3"), SECOND, [[(2, 4)], [(1, 2), (1, 3)], [], [(1, 3)]], ["struck: 1-3"], 0),
                (("--record", 5, "--reason", "1-3"), THIRD, [[(2, 5)], [(1, 2), (2, 3)], [], [(1, 2), (2, 3), (2, 5)]],
                 ["at 2: 1-2, 2-3 and 2-5", "third edge at 2"], 2)):
            with self.subTest(words):
                p = self.picture(*words)
                self.assertEqual([self.drawn(p, group) for group in ("k", "pair", "put", "fault")], wanted)
                self.assertEqual(self.drawn(p, "gap"), wanted[3])
                split_point, (low, high) = {FIRST: 4, SECOND: 1, THIRD: 2}[sentence], wanted[0][0]
                pair = "-".join(sorted(words[-1].replace(",", "-").split("-")))
                number = words[1] if len(words) > 2 else 1
                self.assertEqual(p.texts("legend")[1:4 + len(rows)],
                                 [f"record {number}: K is {low}-{high}", f"pair {pair}", f"split at {split_point}", *rows])
                caption, = p.texts("caption")
                self.assertIn(caption, sentence.splitlines())
                self.assertIn(f" {pair[0]} and {pair[2]} as neighbours", caption)
                self.assertEqual([self.ringed(p, group) for group in ("rings", "spots")], [[split_point], [spot] if spot else []])

    def ringed(self, picture, group):
        """The holes that a group has rings around."""
        spots = {spot: hole for hole, spot in enumerate(picture.spots(), 1)}
        return [spots[int(ring.get("cx")), int(ring.get("cy"))] for ring in picture.groups[group]]

    def test_a_pair_with_the_edge_itself(self):
        """Where the split point is an end of the line's edge, that edge is K's and not drawn twice."""
        p = self.picture("--record", 5, "--reason", "1-5")
        self.assertEqual([self.drawn(p, group) for group in ("k", "pair")], [[(2, 5)], [(1, 2)]])

    def test_the_dearer_exchange(self):
        """What is put in is that of the way whose saving is told."""
        points = [(0, 0), (10, 0), (10, 10), (0, 10), (0, 5)]
        p = Picture(Run("draw", "--reason", "1-2", data=binary([(1, 1, 3, 0, 0, 5, 2, 0), (2, 1, 4, 0, 0, 2, 0, 0)], points)).out)
        self.assertEqual(p.texts("caption"), ["Exchanging 2-5 and 1-3 saves 4 and shuts out 1 and 2 as neighbours of 5."])
        self.assertEqual(self.drawn(p, "put"), [(1, 2), (3, 5)])  # 10 + 11; the other way, 1-5 and 2-3, is 15 long

    def test_long_rows(self):
        """Edges of large points are told by their number."""
        telling = Telling(Verdict(0), (101, 103), 104)
        for kind, points, rows in (("move", [101, 104, 105], ["out: 3 edges", "in: 3 edges", "101 moves"]),
                                   ("exchange", [102, 104, 101, 103], ["out: 102-104 and 101-103", "in: 101-102 and 103-104"])):
            pair = (101, 105) if kind == "move" else (101, 102)
            found = sketch(telling, Reason(pair, kind, points, 4, "words"), Lengths(105, array("I", [1] * 5460)), 1)
            self.assertEqual([words for _, words in found.rows[3:]], rows)

    def test_marks_are_those_of_the_line(self):
        for record, struck in ((1, []), (3, [(1, 3)]), (5, [(1, 3), (2, 4)])):
            p = self.picture("--record", record, "--reason", {1: "1-2", 3: "2-3", 5: "1-3"}[record])
            self.assertEqual(self.drawn(p, "struck"), struck)

    def test_looks_differ(self):
        css = self.picture("--reason", "1-2").root.find(f"{SVG}style").text
        looks = dict(line[1:].split(" ", 1) for line in css.splitlines() if line[:1] == "." and "stroke:" in line)
        names = [*self.GROUPS, "ring", "spot", "open", "struck"]
        self.assertEqual(len({looks[name] for name in names}), len(names))

    def test_everything_lies_in_the_picture(self):
        root = ElementTree.fromstring(Run("draw", REASONS, "--reason", "1-5").out)
        texts = [(float(t.get("x")), float(t.get("y"))) for t in root.iter(f"{SVG}text")]
        self.assertTrue(all(0 < x < int(root.get("width")) and 0 < y < int(root.get("height")) for x, y in texts))
        *_, last, caption = sorted(y for _, y in texts)
        self.assertGreater(caption - last, 20)

    def test_refused(self):
        run = Run("draw", EXAMPLES / "case_missing.bin", "--reason", "1-2")
        self.assertEqual((run.status, run.out), (1, b""))
        self.assertTrue(run.err.startswith("revosti: Refused, number 14, record 1: "), run.err)
        self.assertIn(" is due", run.err)

    def test_no_such_pair(self):
        self.assertEqual(Run("draw", REASONS, "--reason", "4-1").all,
                         (2, "", "revosti: --reason: expected two points of the board beside the split point 4, found 4-1\n"))

    def test_kinds_that_no_first_split_has(self):
        """A crossing and a new order have a picture of their case; here nothing more than K and the pair."""
        telling = Telling(Verdict(0), (1, 3), 4)
        for kind in ("crossing", "order"):
            found = sketch(telling, Reason((1, 2), kind, [1, 2, 3, 4], 5, "words"), None, 1)
            self.assertEqual((found.k, found.pair, found.fault, found.put, found.spot), ([(1, 3)], [(1, 4), (2, 4)], [], [], None))


class Library(unittest.TestCase):
    """The command's words are the library's."""

    def test_sentences(self):
        parts = split(binary([(1, 1, 3, 0, 0, 2, 0, 0)], SQUARE_POINTS))
        found = tell(parts, Lengths(4, measured(parts)), packed([1] * 6), 1)
        told = Run("tell", data=binary([(1, 1, 3, 0, 0, 2, 0, 0)])).text
        self.assertEqual("".join(f"{words}\n" for words in tell_line(4, measured(parts), packed([1] * 6), parts.records, 1)), told)
        self.assertEqual("".join(f"{reason.sentence}\n" for reason in found.reasons), told)
