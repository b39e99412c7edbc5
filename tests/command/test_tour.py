"""revosti tour and revosti edges."""

import json

from tests.support import EXAMPLES
from tests.support.command import NINE, Folder, Run
from tests.support.packing import packed
from tests.support.plain import length_of

from revosti_command.read import pack

SQUARE, WEIGHTS, LINES = (EXAMPLES / name for name in ("square.tsp", "square_weights.tsp", "square.txt"))
SHORTEST = [1, 5, 4, 7, 6, 2, 3, 8, 9]


class Squares(Folder):
    def setUp(self):
        super().setUp()
        self.marks = self.folder / "a.marks"
        Run("fresh", SQUARE, "--marks", self.marks)
        Run("mark", "--board", SQUARE, LINES, "--marks", self.marks)


class Tour(Squares):
    def test_length_and_marks(self):
        for tour, more, said in (("1,2,3,4", (), "The tour has length 40. All its edges are open.\n"),
                                 ("1,3,2,4", (), "The tour has length 48. All its edges are open.\n"),
                                 ("4,3,2,1", ("--marks", self.marks), "The tour has length 40. All its edges are open.\n"),
                                 ("1,3,2,4", ("--marks", self.marks), "The tour has length 48. 2 edges of it are struck: 1-3 and 2-4.\n"),
                                 ("1,3,4,2", ("--marks", self.marks), "The tour has length 48. 2 edges of it are struck: 1-3 and 2-4.\n")):
            for board in (SQUARE, WEIGHTS):
                self.assertEqual(Run("tour", board, tour, *more).all, (0, said, ""))

    def test_pending_counts_as_open(self):
        marks = self.put("b", packed([1, 2, 1, 1, 0, 1]))
        self.assertEqual(Run("tour", SQUARE, "1,3,2,4", "--marks", marks).text, "The tour has length 48. 1 edge of it is struck: 2-4.\n")

    def test_nine_points(self):
        parts = pack(NINE.read_text()).parts
        length = sum(length_of(1, parts.points[a - 1], parts.points[b - 1]) for a, b in zip(SHORTEST, SHORTEST[1:] + SHORTEST[:1]))
        self.assertEqual(Run("tour", NINE, ",".join(map(str, SHORTEST))).text, f"The tour has length {length:,}. All its edges are open.\n")

    def test_files(self):
        wanted = Run("tour", NINE, ",".join(map(str, SHORTEST))).all
        blank, lines = " ".join(map(str, SHORTEST)), "\n".join(map(str, SHORTEST))
        tsplib = "NAME : nine.opt.tour\nCOMMENT : 1 2 3\nTYPE : TOUR\nDIMENSION : 9\nTOUR_SECTION\n"
        for text in (blank, lines, ",".join(map(str, SHORTEST)) + "\n", tsplib + lines + "\n-1\nEOF\n", tsplib + blank + " -1\n",
                     tsplib + lines,
                     tsplib.replace("\n", "\r\n") + lines.replace("\n", "\r\n") + "\r\n-1\r\nEOF\r\n", (tsplib + blank + "\nEOF\n")):
            self.assertEqual(Run("tour", NINE, self.put("a.tour", text)).all, wanted, text)

    def test_refused(self):
        for tour, words in (("1,2,3", "Point 4 is missing."), ("1,2,3,3", "Point 3 is there 2 times."),
                            ("1,2,3,4,4", "Point 4 is there 2 times."),
                            ("1,2,3,5", "Here is point 5; n is 4."), ("0,1,2,3", "Here is point 0; n is 4."), (" ", "Point 1 is missing.")):
            run = Run("tour", SQUARE, tour)
            self.assertEqual((run.status, run.out), (1, b""))
            self.assertEqual(run.err, "revosti: the tour: Refused, number 17: The tour is not n numbers, or not each point from 1 to n "
                                      f"exactly once. {words}\n")

    def test_bad_texts(self):
        for text, words in (("1,2,x,4", 'expected point numbers with commas or blanks between, found "x"'),
                            ("1 2 70000 4", "from 0 to 65535, found 70000"),
                            ("1,2,³,4", 'found "³"'), ("9" * 5000, f"found {'9' * 40}.."),
                            ("TYPE : TSP\nTOUR_SECTION\n1 2\n", 'found "TSP"')):
            file = self.put("a.tour", text)
            self.assertEqual((Run("tour", SQUARE, file).status, words in Run("tour", SQUARE, file).err), (2, True), text)

    def test_json(self):
        run = Run("tour", SQUARE, "1,3,2,4", "--marks", self.marks, "--json")
        self.assertEqual(json.loads(run.text),
                         {"refusal": 0, "length": 48, "open": False, "struck": [[1, 3], [2, 4]], "tour": [1, 3, 2, 4]})
        self.assertEqual(json.loads(Run("tour", SQUARE, "1,2", "--json").text)["refusal"], 17)


class Edges(Squares):
    def test_square(self):
        self.assertEqual(Run("edges", SQUARE, "--marks", self.marks).all, (0, "4 4\n0 1 10\n0 3 10\n1 2 10\n2 3 10\n", ""))
        self.assertEqual(Run("edges", WEIGHTS).text, "4 6\n0 1 10\n0 2 14\n0 3 10\n1 2 10\n1 3 14\n2 3 10\n")

    def test_pending_counts_as_open(self):
        marks = self.put("b", packed([1, 2, 0, 0, 0, 0]))
        self.assertEqual(Run("edges", SQUARE, "--marks", marks).text, "4 2\n0 1 10\n0 2 14\n")

    def test_nine_points(self):
        marks, parts = self.folder / "nine.marks", pack(NINE.read_text()).parts
        Run("fresh", NINE, "--marks", marks)
        Run("mark", NINE, "--marks", marks)
        first, *rows = Run("edges", NINE, "--marks", marks).text.splitlines()
        legs = sorted(tuple(sorted((a - 1, b - 1))) for a, b in zip(SHORTEST, SHORTEST[1:] + SHORTEST[:1]))
        self.assertEqual(first, "9 9")
        self.assertEqual(rows, [f"{a} {b} {length_of(1, parts.points[a], parts.points[b])}" for a, b in legs])
