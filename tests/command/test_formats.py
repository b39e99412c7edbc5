"""The examples in docs/FORMATS.md, sets of marks, TSPLIB texts and sentences among them, and the distances and savings in
docs/RULES.md are true, and both have each refusal."""

import re
import unittest

from tests.support import EXAMPLES
from tests.support.command import SQUARE_POINTS, TOOLS, Folder, Run, binary
from tests.support.packing import packed
from tests.support.plain import RULES, length_of

from revosti.refusal import REFUSALS
from revosti.telling import SENTENCE_BYTES
from revosti_command.edges import edges
from revosti_command.lengths import Lengths, measured
from revosti_command.marks import NAMES
from revosti_command.parts import ZERO_IN, Record, split
from revosti_command.read import pack, pack_beside
from revosti_command.telling import KINDS, read
from revosti_command.tsplib import complaint
from revosti_command.verdict import dry

PAGE = (TOOLS.parent / "docs" / "FORMATS.md").read_text(encoding="utf-8")
RULES_PAGE = (TOOLS.parent / "docs" / "RULES.md").read_text(encoding="utf-8")
DISTANCES = RULES_PAGE.partition("The distance d")[2]


def block(start):
    """The fenced block that begins with some text."""
    return next(b for b in re.findall(r"^```\w*\n(.*?)^```$", PAGE, re.S | re.M) if b.startswith(start))


def answer(parts):
    """What `mark` prints for a board that is not refused."""
    found = dry(Lengths(parts.n, measured(parts)), None, parts)
    count = parts.n * (parts.n - 1) // 2
    struck = "".join(f"struck {a} {b}\n" for a, b in found.changed())
    return (f"points {parts.n} edges {count}\n{struck}"
            f"verdict {found.refusal} record {found.record} open {count - len(found.changed())}\n")


def numbers(*texts):
    """The numbers in some texts."""
    return [int(digits.replace(",", "")) for digits in re.findall(r"[\d,]+", " ".join(texts))]


class Formats(unittest.TestCase):
    def setUp(self):
        self.text = block("# six points")
        self.parts = pack(self.text).parts

    def test_records(self):
        written = re.findall(r"^\d+: ([\d ]+?)  ", block("1: 1 2 3"), re.M)
        self.assertEqual([" ".join(map(str, r)) for r in self.parts.records], written)

    def test_output(self):
        self.assertEqual(answer(self.parts), block("points 6 edges"))

    def test_refusal(self):
        run = Run("explain", data=re.sub(r"\n.*crossing.*", "", self.text).encode())
        self.assertEqual(run.status, 1)
        self.assertIn(block("Refused"), run.text)


class Stretch(unittest.TestCase):
    """The sheet with a new order is the example, its records are those shown, and what is told of its damages is so."""

    def test_text(self):
        self.assertEqual(block("# one line"), (EXAMPLES / "stretch.txt").read_text())
        written = re.findall(r"^(\d+): ([\d ]+?)  ", block("3: 4 1 5"), re.M)
        records = split((EXAMPLES / "stretch.bin").read_bytes()).records
        self.assertEqual(written, [(str(k), " ".join(map(str, record))) for k, record in enumerate(records, 1) if k > 2])

    def test_kinds(self):
        section = PAGE.partition("A record has eight 16-bit numbers.")[2].partition("\nIndex 0 ends")[0]
        rows = [[cell.strip() for cell in row.split("|")[2:-1]] for row in section.splitlines() if row.startswith("| ")][1:]
        self.assertEqual([int(row[0]) for row in rows], list(ZERO_IN))
        for kind, *row in rows:
            named = dict(zip(Record._fields[1:], row))
            self.assertEqual([name for name in named if named[name] == "0"], list(ZERO_IN[int(kind)]))

    def test_sentences(self):
        for name, number, start in (("stretch_point_twice", 23, "The stretch is 4-3"), ("stretch_not_shorter", 24, "The stretch 4-3")):
            self.assertIn(f"Refused, number {number}: {REFUSALS[number]}\n{block(start)}", Run("explain", EXAMPLES / f"{name}.bin").text)

    def test_options(self):
        rows = re.findall(r"^\| `(pair 1-5: order from 4 to 5|point 6, [^`]*)` \|", PAGE, re.M)
        self.assertEqual(len(rows), 2)
        records = pack_beside(split(binary())._replace(records=[]), f"strike 1-2, split at 3\n  {rows[0]}\n    {rows[1]}\n").parts.records
        self.assertEqual(records[1:], [(4, 1, 5, 4, 5, 0, 3, 0), (5, 6, 1, 2, 3, 4, 5, 0)])


class Marks(unittest.TestCase):
    """The set of four points bit by bit, and the table of sizes."""

    SECTION = PAGE.partition("## Sets of marks")[2].partition("\n## ")[0]
    BITS = re.findall(r"^\| (?:first|second) \| (.*) \| (\d+) \|$", SECTION, re.M)

    def test_bits(self):
        cells = [cell for row, _ in self.BITS for cell in reversed(row.split(" | "))]
        written = [re.fullmatch(r"(\d)-(\d): ([01]{2}), (\w+)", cell).groups() for cell in cells[:6]]
        self.assertEqual([(int(a), int(b)) for a, b, _, _ in written], edges(4))
        self.assertEqual([NAMES[int(bits, 2)] for _, _, bits, _ in written], [name for *_, name in written])
        self.assertEqual({name for *_, name in written}, {"struck", "open", "pending"})
        self.assertEqual(cells[6:], ["unused: 00"] * 2)
        marks = [int(bits, 2) for _, _, bits, _ in written]
        self.assertEqual(packed(marks), bytes(int(value) for _, value in self.BITS))
        self.assertIn(f"here `{' '.join(map(str, marks))}`", self.SECTION)

    def test_shown(self):
        data = bytes(int(value) for _, value in self.BITS)
        self.assertEqual(Run("convert", "--to", "text", data=data).text, block("points 4 edges 6\nopen"))

    def test_sizes(self):
        rows = [numbers(row) for row in re.findall(r"^\| (\d+ \| [\d,]+ \|.*)$", self.SECTION, re.M)]
        self.assertEqual([row[0] for row in rows], [4, 5, 6, 7, 8, 180])
        for n, *row in rows:
            count = n * (n - 1) // 2
            fresh = packed([1] * count)
            self.assertEqual(row, [count, len(fresh), 8 * len(fresh) - 2 * count, fresh[-1], count], n)


class Distances(unittest.TestCase):
    """The table of distances: the differences above, then S, then a row for each rule."""

    def setUp(self):
        lines = re.match(r".*?\n\n((?:\|.*\n)+)", DISTANCES)[1].splitlines()
        head, _, *rows = [[cell.strip() for cell in line.split("|")[1:-1]] for line in lines]
        self.differences = [(numbers(cell) * 2)[:2] for cell in head[3:]]  # one number stands for both
        self.squares, *self.rules = rows

    def test_squares(self):
        self.assertEqual(numbers(*self.squares[3:]), [g * g + h * h for g, h in self.differences])

    def test_rules(self):
        self.assertEqual({int(row[0]): row[1] for row in self.rules}, RULES)
        for rule, row in enumerate(self.rules, 1):
            self.assertEqual(numbers(*row[3:]), [length_of(rule, (0, 0), d) for d in self.differences], row)


class Texts(unittest.TestCase):
    """The TSPLIB texts in FORMATS.md are the examples, and are what `unpack` and the complaint of `pack` say."""

    def test_examples(self):
        self.assertEqual(block("NAME : square\nCOMMENT : four"), (EXAMPLES / "square.tsp").read_text())
        self.assertEqual(block("NAME : square\nCOMMENT : the lengths"), (EXAMPLES / "square_weights.tsp").read_text())
        self.assertEqual(block("# two lines"), (EXAMPLES / "square.txt").read_text())

    def test_parts(self):
        data = (EXAMPLES / "square.bin").read_bytes()
        written = (EXAMPLES / "square.tsp").read_text().splitlines(keepends=True)
        self.assertEqual(Run("unpack", "--tsplib", data=data).text, "".join(written[2:]))
        self.assertEqual(Run("unpack", "--records", data=data).text, "".join(block("# two lines").splitlines(keepends=True)[1:]))

    def test_complaint(self):
        line, message = re.fullmatch(r"revosti: board.tsp, line (\d+): (.*)\n", block("revosti: board.tsp, line")).groups()
        text = block("NAME : square\nCOMMENT : four").replace("2 10 0", "2 1.11630e+03 0")
        self.assertEqual(complaint(text.split("\n"), int(line)), message)

    def test_answers(self):
        cut = (EXAMPLES / "square.tsp").read_bytes().removesuffix(b"EOF\n").count(b"\n") + 1
        self.assertIn(f"`examples/square.tsp`: {4 * 65536:,}; cut before EOF, which is line {cut}: {19 + 256 * cut:,} |", RULES_PAGE)


class Savings(unittest.TestCase):
    """The numbers of the examples in RULES.md."""

    def test_differences(self):
        section = RULES_PAGE.partition("## Savings")[2].partition("\n## ")[0]
        found = [tuple(int(number.replace("−", "-")) for number in row) for row in re.findall(r"(\d+)\s−\s(\d+)\s=\s(−?\d+)", section)]
        self.assertEqual(found, [(28, 20, 8), (20, 28, -8), (34, 34, 0), (29, 25, 4), (30, 27, 3), (30, 30, 0), (30, 32, -2)])

    def test_answers(self):
        self.assertIn(f"exchanging 1-3 and 2-4: {8 * 65536:,}; 1-2 and 3-4: −{8 * 65536:,} |", RULES_PAGE)


class Examples(unittest.TestCase):
    """The sheets on the square with a fifth point, in RULES.md."""

    def test_verdicts(self):
        told = RULES_PAGE.partition("- Square with 5 (0,5), ")[2].partition("\n- ")[0]
        found = re.findall(r"((?:`[\d ]+`,?\s*)+): (\d+), record (\d+)", told)
        self.assertEqual([number for _, number, _ in found], ["14", "15"])
        files = []
        for sheet, number, record in found:
            records = [tuple(map(int, row.split())) for row in re.findall(r"`([\d ]+)`", sheet)]
            files.append(binary(records, points=[*SQUARE_POINTS, (0, 5)]))
            self.assertEqual(answer(split(files[-1])).splitlines()[-1], f"verdict {number} record {record} open 10")
        self.assertEqual((EXAMPLES / "point_moved.bin").read_bytes(), files[0])


class Reasons(unittest.TestCase):
    """The sentences of a line: the example, and a sentence of each kind, of which the header has those that can be told."""

    SECTION = PAGE.partition("## Reasons in words")[2].partition("\n## ")[0]
    HEADER = (TOOLS.parent / "include/revosti.h").read_text(encoding="utf-8")

    def test_example(self):
        self.assertEqual(block("Exchanging 2-4 and 1-3"), Run("tell", EXAMPLES / "reasons.txt").text)

    def test_sentences(self):
        rows = re.findall(r"^\| `(.*\.)` \| [^|]* \| (\w+) \| (yes|no)", self.SECTION, re.M)
        self.assertEqual([read(None, sentence).kind for sentence, _, _ in rows], [kind for _, kind, _ in rows])
        self.assertEqual(sorted(kind for _, kind, _ in rows), sorted(KINDS.values()))
        told = [sentence for sentence, _, answer in rows if answer == "yes"]
        self.assertEqual(re.findall(r"^ \*   (.* as neighbours of \d\.)$", self.HEADER, re.M), told)

    def test_numbers(self):
        self.assertEqual(re.findall(r"([\d,]+) of them for 180 points", self.SECTION), [f"{179 * 178 // 2:,}"])
        self.assertIn(f"at most {SENTENCE_BYTES - 1} bytes and a newline", self.SECTION)


class Files(Folder):
    """The fingerprint, the tour, the edge file and the rounded board of FORMATS.md."""

    def setUp(self):
        super().setUp()
        self.board, self.marks = EXAMPLES / "square.tsp", self.folder / "board.marks"
        Run("fresh", self.board, "--marks", self.marks)

    def test_fingerprint(self):
        self.assertEqual(block("# which lengths"), (self.folder / "board.marks.fingerprint").read_text())

    def test_tour_and_edges(self):
        Run("mark", "--board", self.board, EXAMPLES / "square.txt", "--marks", self.marks)
        self.assertEqual(block("The tour has"), Run("tour", self.board, "1,3,2,4", "--marks", self.marks).text)
        self.assertEqual(block("4 4\n"), Run("edges", self.board, "--marks", self.marks).text)

    def test_rounded(self):
        file = self.put("reals.tsp", self.board.read_text().replace("2 10 0", "2 10.4 0").replace("3 10 10", "3 9.9 1.0e+01")
                        .replace("4 0 10", "4 0.1 10"))
        self.assertEqual(block("revosti: reals.tsp"), Run("board", file).err.replace(str(file), "reals.tsp"))


class Refusals(unittest.TestCase):
    """The tables of refusals: one row for each in RULES.md, two in a row in FORMATS.md, the last perhaps alone."""

    def test_rules(self):
        section = RULES_PAGE.partition("## Each operation and its refusals")[2].partition("\n## ")[0]
        self.assertEqual(list(map(int, re.findall(r"^\| (\d+) \| ", section, re.M))), list(REFUSALS))

    def test_formats(self):
        table = PAGE.partition("| Number | Meaning | Number | Meaning |\n|---|---|---|---|\n")[2].partition("\n\n")[0]
        rows = re.findall(r"^\| (\d+) \| [^|]* \| (?:(\d+) \| [^|]* )?\|", table, re.M)
        self.assertEqual(sorted(int(number) for row in rows for number in row if number), list(REFUSALS))
