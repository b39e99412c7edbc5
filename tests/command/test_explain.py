"""explain: every refusal number, the record in its place, what the file shows."""

import json
import re
import unittest

from tests.support import EXAMPLES
from tests.support.command import NINE, SQUARE_HEAD, SQUARE_RECORDS, Folder, Run, binary
from tests.support.packing import packed
from tests.support.plain import Board, edge

from revosti import fresh_marks
from revosti.refusal import REFUSALS
from revosti_command.explain import explain
from revosti_command.fault import Sight
from revosti_command.lengths import Lengths, measured
from revosti_command.parts import join, split
from revosti_command.read import Sheet, pack
from revosti_command.standing import edges_of, put, standing
from revosti_command.verdict import Verdict, dry

# The key words of 01 for each number.
KEYS = {1: "4 to 180", 2: "not 2n numbers", 3: "outside 1 to 5", 4: "above 1,000,000",
        5: "above 2,000,000", 6: "a mark of 3 or an unused bit set", 7: "1 to 4,000 whole records",
        8: "above the record count", 9: "highest record entered", 10: "wrong kind",
        11: "outside 1 to n, or a = b", 12: "struck already", 13: "seventh split",
        14: "next standing one", 15: "edge or centres break", 16: "No labelling",
        17: "each point from 1 to n exactly once", 18: "fewer than twice as many places",
        19: "no TSPLIB text", 20: "Something is pending", 21: "Nothing is pending", 22: "a view has six bytes",
        23: "no stretch from u to v", 24: "is not shorter", 25: "A low length is above its high one", 26: "page number is 0", 27: "not such a page",
        28: "outside 1 to 8", 29: "still has a line"}


def told(records, refusal, record, struck=(), board=True, **file):
    """The explanation for a file and an answer made up for it."""
    parts = split(binary(records, **file))
    if not board:
        return explain(Sheet(parts, []), Verdict(refusal))
    marks = [0 if e in struck else 1 for e in ((1, 2), (1, 3), (1, 4), (2, 3), (2, 4), (3, 4))]
    lengths = Lengths(4, [10, 14, 10, 10, 14, 10])
    return explain(Sheet(parts, []), Verdict(refusal, record, len(struck), lengths, packed([1] * 6), packed(marks)))


def marked(data):
    """The explanation of what marking says about a file."""
    parts = split(data)
    return explain(Sheet(parts, []), dry(Lengths(parts.n, measured(parts)), None, parts))


class Numbers(unittest.TestCase):
    """An answer made up for each number."""

    def test_table_is_whole(self):
        self.assertEqual(sorted(REFUSALS), sorted(KEYS))

    def test_each_refusal(self):
        for number, key in KEYS.items():
            with self.subTest(number):
                text = told(SQUARE_RECORDS, number, 2)
                self.assertIn(f"Refused, number {number}: ", text)
                self.assertIn(key, text)
                self.assertIn("Record 2 is at fault:\n"
                              "      1  strike 1-3, split at 2\n"
                              ">     2  strike 2-4, split at 1", text)

    def test_no_record_at_fault(self):
        run = Run("explain", data=b"")
        self.assertEqual((run.status, run.err), (1, ""))
        self.assertEqual(run.text.splitlines()[1:], ["The file has 0 bytes and no whole header.",
                                                     "Nothing is marked.", "", "No record is at fault."])

    def test_accepted(self):
        run = Run("explain", data=binary(SQUARE_RECORDS))
        self.assertEqual((run.status, run.err), (0, ""))
        self.assertEqual(run.text, (
            "The board has 4 points and 6 edges (rule 1, EUC_2D). The sheet has 2 records.\n\n"
            "Edge 1-3 is struck: no shortest tour goes straight between 1 and 3 (record 1).\n"
            "Edge 2-4 is struck: no shortest tour goes straight between 2 and 4 (record 2).\n\n"
            "Verdict 0: every line of the sheet is accepted, 2 lines.\n"
            "Struck: 2 edges. Pending: 0 edges. Open: 4 edges.\n"))

    def test_unknown_number(self):
        for number in (30, 40):
            self.assertIn("not one of 1 to 29", told(SQUARE_RECORDS, number, 1))

    def test_some_lines_around(self):
        lines = [(1, 1, 2, 0, 0, 3, 0, k + 1) for k in range(1, 20)] + [(1, 1, 2, 0, 0, 3, 0, 0)]
        shown = re.findall(r"^(.) +(\d+)  strike", told(lines, 12, 10), re.M)
        self.assertEqual(shown, [(">" if k == 10 else " ", str(k)) for k in range(7, 14)])


class Details(unittest.TestCase):
    """The sentence that the file itself settles."""

    def test_file(self):
        many = [(1, 1, 2, 0, 0, 3, 0, 0)]
        for refusal, words, file in (
                (1, "Here n is 3.", {"points": [(0, 0)] * 3}),
                (3, "Here the rule is 0.", {"rule": 0}),
                (3, "Here the rule is 6.", {"rule": 6}),
                (4, "Point 2 is at 5 1000001.", {"points": [(0, 10**6), (5, 10**6 + 1)] * 2}),
                (7, "The file ends after 4 of 7 points and 2 bytes.", {"n": 7, "tail": b"ab"}),
                (7, "3 bytes follow the last whole record", {"tail": b"abc"}), (7, "1 byte follows the last whole record", {"tail": b"a"}),
                (7, "The file has no records.", {}),
                (7, "The sheet has 4,001 records.", {"records": many * 4001}),
                (7, "The file has 80,040 bytes.", {"records": many * 5000})):
            with self.subTest(words):
                records = file.pop("records", [])
                self.assertIn(words, told(records, refusal, 0, board=False, **file))

    def test_nothing_is_guessed(self):
        for refusal in REFUSALS:
            with self.subTest(refusal):
                good = told(SQUARE_RECORDS, refusal, 1)
                sentences = good.split("\n\n")[1].splitlines()
                wanted = 4 if refusal in (9, 12, 13) else 3
                self.assertEqual(len(sentences), wanted, good)

    def test_rules_that_are_known_are_no_fault(self):
        for rule in range(1, 6):
            self.assertNotIn("Here the rule", told(SQUARE_RECORDS, 3, 0, board=False, rule=rule))

    def test_indexes(self):
        for refusal, fields, words in ((8, (7, 0), "Its first index is 7; the sheet has 1 record."),
                                       (8, (0, 8), "Its next index is 8; the sheet has 1 record."),
                                       (9, (1, 0), "Its first index is 1."),
                                       (9, (0, 1), "Its next index is 1.")):
            self.assertIn(words, told([(1, 1, 3, 0, 0, 2, *fields)], refusal, 1))
        for first, refusal, words in ((7, 8, "Its first index is 7; the sheet has 2 records."), (2, 9, "Its first index is 2.")):
            self.assertIn(words, told([(1, 1, 3, 0, 0, 2, 2, 0), (4, 1, 3, 1, 2, 0, first, 0)], refusal, 2))

    def test_shapes(self):
        self.assertIn("Its kind is 2; its chain takes kind 1.", told([(2, 1, 3, 0, 0, 2, 0, 0)], 10, 1))
        self.assertIn("Here v is 5.", told([(1, 1, 3, 0, 5, 2, 0, 0)], 10, 1))
        self.assertIn("Here u is 4 and v is 5.", told([(1, 1, 3, 4, 5, 2, 0, 0)], 10, 1))
        line = (1, 1, 3, 0, 0, 2, 2, 0)
        for kind in (1, 5):
            self.assertIn(f"Its kind is {kind}; its chain takes kind 2, 3 or 4.", told([line, (kind, 1, 3, 0, 0, 2, 0, 0)], 10, 2))
        order = (4, 1, 3, 1, 2, 0, 3, 0)
        self.assertIn("Its kind is 2; its chain takes kind 5.", told([line, order, (2, 1, 3, 0, 0, 2, 0, 0)], 10, 3))
        self.assertIn("Here c is 7.", told([line, order[:5] + (7, 0, 0)], 10, 2))
        self.assertIn("Here b is 1 and d is 9.", told([line, order, (5, 4, 1, 0, 0, 0, 9, 0)], 10, 3))

    def test_points(self):
        self.assertIn("Here a is 0 and c is 5; n is 4.", told([(1, 0, 3, 0, 0, 5, 0, 0)], 11, 1))
        self.assertIn("Here a and b are both 3.", told([(1, 3, 3, 0, 0, 2, 0, 0)], 11, 1))
        line, order = (1, 1, 3, 0, 0, 2, 2, 0), (4, 1, 3, 9, 2, 0, 3, 0)
        self.assertIn("Here u is 9; n is 4.", told([line, order], 11, 2))
        self.assertIn("Here a is 5; n is 4.", told([line, order, (5, 5, 0, 0, 0, 0, 0, 0)], 11, 3))

    def test_struck_before(self):
        twice = [(1, 1, 3, 0, 0, 2, 0, 2), (1, 3, 1, 0, 0, 2, 0, 0)]
        self.assertIn("Record 1 strikes it.", told(twice, 12, 2, [(1, 3)]))
        self.assertIn("It was struck before this sheet.", told(twice, 12, 1))

    def test_conditions(self):
        def crossing(*fields):
            return told([(1, 1, 2, 0, 0, 3, 2, 0), (3, 1, 4, *fields, 0)], 15, 2)
        self.assertIn("Here 1-4 is not in K; centre 2 has 1 edge in K.", crossing(1, 4, 3, 2))
        self.assertIn("Here the centres are the same point.", crossing(1, 2, 3, 3))
        self.assertIn("Here centre 3 is an end of 1-3; centre 4 has 1 edge in K; 3-4 is in K.",
                      crossing(1, 3, 3, 4))


class DuePairs(unittest.TestCase):
    """14 names the pairs that are due."""

    def test_square(self):
        shown = marked(binary([(1, 1, 2, 0, 0, 3, 0, 0)]))
        self.assertIn("The pair 1-4 is due, and 1 more after it: 2-4. Its split has no cases.", shown)
        self.assertIn(">     1  strike 1-2, split at 3", shown)

    def test_pair_too_many(self):
        shown = marked(binary([(1, 1, 3, 0, 0, 2, 2, 0), (3, 1, 4, 1, 3, 2, 4, 0)]))
        self.assertIn("No pair is due any more: the chain has named all standing pairs.", shown)

    def test_pair_that_a_moved_point_shuts_out(self):
        shown = marked((EXAMPLES / "point_moved.bin").read_bytes())
        self.assertIn("Refused, number 14", shown)
        self.assertIn("No pair is due any more: the chain has named all standing pairs.", shown)
        self.assertIn(">     3      pair 3-5: crossing", shown)

    def test_no_guess_after_a_pair_that_does_not_stand(self):
        cases = [(1, 1, 2, 0, 0, 3, 2, 0), (2, 2, 3, 0, 0, 4, 0, 3), (2, 3, 4, 0, 0, 1, 0, 0)]
        self.assertNotIn("due", told(cases, 14, 3))
        self.assertIn("The pair 1-4 is due, and 1 more", told(cases, 14, 2))

    def test_each_pair_left_out(self):
        lines = NINE.read_text().splitlines()
        checked = 0
        for at, line in enumerate(lines):
            if not line.lstrip().startswith("pair"):
                continue
            shown = marked(packed_text(without(lines, at)))
            self.assertIn("Refused, number 14", shown)
            self.assertRegex(shown, rf"The pair {line.split()[1][:-1]} is due[.,]")
            checked += 1
        self.assertGreater(checked, 30)


class Standing(unittest.TestCase):
    """The pairs from the marker are those of the plain rules, at every split of a sheet, and at splits that no sheet
    has."""

    def agree(self, parts, struck, way):
        """Both ways to list the pairs of a split."""
        lengths, marks = Lengths(parts.n, measured(parts)), fresh_marks(parts.n)
        for a, b in struck:
            put(parts.n, marks, a, b, 0)
        found = standing(lengths, marks, way)
        self.assertEqual(found, Board(parts.rule, parts.points, struck).standing(edges_of(way), way[-1].c), way)
        return found

    def test_nine_points(self):
        parts, struck, counts, line = pack(NINE.read_text()).parts, set(), [], None
        sight = Sight(parts.records, Lengths(9, []), b"", 1)
        for number, place in sight.places.items():
            record = parts.records[number - 1]
            if place.depth == 0:
                struck |= {line} - {None}
                line = edge(record.a, record.b)
            if record.kind != 3:
                counts.append(len(self.agree(parts, struck, sight.way(number))))
        self.assertGreater(len(counts), 50)

    def test_every_split_under_every_case(self):
        parts, seen = pack(NINE.read_text()).parts, set()
        for a, b, c in ((1, 3, 2), (4, 8, 5), (2, 6, 6)):
            line = parts.records[0]._replace(a=a, b=b, c=c)
            for x, y in self.agree(parts, {(4, 6)}, [line]):
                for d in range(1, 10):
                    pairs = self.agree(parts, {(4, 6)}, [line, parts.records[2]._replace(a=x, b=y, c=d)])
                    seen.add(len(pairs))
                    for p, q in pairs[:2]:
                        self.agree(parts, {(4, 6)},
                                   [line, parts.records[2]._replace(a=x, b=y, c=d), parts.records[2]._replace(a=p, b=q, c=9)])
        self.assertGreater(len(seen), 4)

    def test_a_way_that_does_not_stand(self):
        parts = pack(NINE.read_text()).parts
        line, case = parts.records[0]._replace(a=1, b=3, c=2), parts.records[2]._replace(a=1, b=3, c=5)
        self.assertIsNone(standing(Lengths(9, measured(parts)), fresh_marks(9), [line, case]))


def packed_text(lines):
    """The file of a text."""
    return join(pack("\n".join(lines)).parts)


def without(lines, at):
    """A text without one line, the lines inside it, and all further strikes."""
    depth = len(lines[at]) - len(lines[at].lstrip())
    end = at + 1
    while end < len(lines) and len(lines[end]) - len(lines[end].lstrip()) > depth:
        end += 1
    rest = end
    while rest < len(lines) and lines[rest].startswith(" "):
        rest += 1
    return lines[:at] + lines[end:rest]


class Command(Folder):
    """The whole command."""

    def test_examples_of_01(self):
        for record, words in (((1, 1, 2, 0, 0, 3, 0, 0), "number 14"),
                              ((1, 1, 3, 0, 0, 2, 0, 1), "number 9")):
            run = Run("explain", data=binary([record]))
            self.assertIn(words, run.text)
            self.assertIn(">     1  strike", run.text)
        self.assertIn("Edge 1-3 is struck", run.text)

    def test_rules(self):
        accepted, refused = "Verdict 0", "Refused, number 14"  # by MAX_2D sides and diagonals are as long, and pairs stand
        for rule, name, words in ((1, "EUC_2D", accepted), (2, "CEIL_2D", accepted), (3, "ATT", accepted),
                                  (4, "MAN_2D", accepted), (5, "MAX_2D", refused)):
            run = Run("explain", data=binary(SQUARE_RECORDS, rule=rule))
            self.assertIn(f"The board has 4 points and 6 edges (rule {rule}, {name}).", run.text)
            self.assertIn(words, run.text)

    def test_no_rule(self):
        for rule in (0, 6):
            run = Run("explain", data=binary(SQUARE_RECORDS, rule=rule))
            self.assertEqual(run.text, f"Refused, number 3: The rule is outside 1 to 5.\nHere the rule is {rule}.\n"
                                       "Nothing is marked.\n\nNo record is at fault.\n")

    def test_as_the_program_mark_refuses_files(self):
        many = [(1, 1, 2, 0, 0, 3, 0, 0)] * 4100
        for data, number in ((b"", 7), (bytes(7), 7), (binary(n=3)[:8], 1), (binary(n=181), 1), (binary(n=5), 7), (binary(many, rule=9), 7),
                             (binary(rule=9), 3), (binary(points=[(0, 0)] * 3 + [(0, 10**6 + 1)]), 4), (binary(), 7),
                             (binary(tail=b"x"), 7)):
            run = Run("explain", "--form", "binary", data=data)
            self.assertEqual(run.status, 1)
            self.assertIn(f"Refused, number {number}: ", run.text)

    def test_text_names_its_own_line(self):
        text = SQUARE_HEAD + "\n# wrong\nstrike 1-2, split at 3\n"
        self.assertIn("Record 1 is at fault, line 9 of the text:", Run("explain", data=text.encode()).text)

    def test_bad_text(self):
        run = Run("explain", data=b"rul 1\n")
        self.assertEqual(run.status, 2)
        self.assertIn('line 1, column 1: expected "rule" or "bytes", found "rul"', run.err)

    def test_form_can_be_said(self):
        self.assertIn("Here n is 1869619249.", Run("explain", "--form", "binary", data=b"rule1 po").text)
        self.assertEqual(Run("explain", "--form", "text", data=b"\0\0").status, 2)

    def test_over_a_set(self):
        marks = self.put("a.marks", packed([1, 1, 1, 1, 0, 1]))
        for name in ("explain", "slip"):
            run = Run(name, "--marks", marks, data=binary(SQUARE_RECORDS))
            self.assertEqual((run.status, run.err, len(run.notes)), (1, "", 1))
            self.assertIn("Refused, number 12: The edge is struck already.\nIt was struck before this sheet.\n"
                          "1 line before it is accepted.\nStruck: 2 edges. Pending: 0 edges. Open: 4 edges.\n\nRecord 2 is at fault:\n", run.text)
            self.assertEqual(marks.read_bytes(), packed([1, 1, 1, 1, 0, 1]))
        self.assertIn("The examiner sees 12 0 2 0 1 0: ", run.text)
        self.assertIn("The candidate sees 255 0 0 0 1 0: the sheet stopped, 1 line accepted.\n", run.text)

    def test_asked_and_marked_alike(self):
        """Within an asked sheet a pending edge counts as struck, for the pairs that are due, too."""
        lines, due = NINE.read_text().splitlines(), []
        for at in [at for at, line in enumerate(lines) if line.lstrip().startswith("pair")][::3]:
            sheet, found = packed_text(without(lines, at)), []
            for name in ("mark", "ask"):
                marks = self.put("a.marks", packed([1] * 36))
                found.append(json.loads(Run(name, "--marks", marks, "--json", data=sheet).text))
                self.assertEqual(found[-1]["refusal"], 14)
            self.assertEqual(found[0]["due"], found[1]["due"])
            due += found[0]["due"]
        self.assertGreater(len(due), 10)

    def test_over_weights_and_two_boards(self):
        low, high, sheet = (EXAMPLES / name for name in ("square_weights.tsp", "wide_weights.tsp", "square.txt"))
        for more in ((), ("--high", high)):
            for name in ("explain", "slip"):
                self.assertEqual(Run(name, "--board", low, sheet, *more).status, 0)
        self.assertIn("(by weights)", Run("explain", "--board", low, sheet, "--high", high).text)
        self.assertIn("Refused, number 25", Run("explain", "--board", high, sheet, "--high", low).text)

    def test_json(self):
        run = Run("explain", "--json", data=binary(SQUARE_RECORDS))
        self.assertEqual(json.loads(run.text), {
            "refusal": 0, "record": 0, "lines": 2, "slip": 2 << 24, "points": 4, "edges": 6, "changed": [[1, 3], [2, 4]],
            "struck": 2, "pending": 0, "open": 4})
        found = json.loads(Run("explain", "--json", data=binary([(1, 1, 2, 0, 0, 3, 0, 0)])).text)
        self.assertEqual((found["refusal"], found["record"], found["due"], found["text_line"]), (14, 1, [[1, 4], [2, 4]], None))
        self.assertEqual(found["words"], REFUSALS[14])
        found = json.loads(Run("explain", "--json", data=b"").text)
        self.assertEqual((found["refusal"], found["detail"]), (7, "The file has 0 bytes and no whole header."))
