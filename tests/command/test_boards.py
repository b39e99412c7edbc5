"""Boards in TSPLIB texts, by coordinates and by weights, for every command of revosti that calls the library."""

import random
import re

from tests.support import EXAMPLES, ROOT
from tests.support.command import SQUARE_POINTS, SQUARE_RECORDS, Folder, Run, binary
from tests.support.packing import packed, some
from tests.support.texts import NODES, WEIGHTS, changed, text

import revosti
from revosti_command.edges import RULES
from revosti_command.parts import Parts, Record, join
from revosti_command.tsplib import write_board
from revosti_command.write import unpack_beside

N, TABLE = 4, [10, 14, 10, 10, 14, 10]
LOW, HIGH, SHEET = (EXAMPLES / name for name in ("square_weights.tsp", "wide_weights.tsp", "square.txt"))
PAGE = (ROOT / "docs/FORMATS.md").read_text(encoding="utf-8")
WIDE = [14, 20, 14, 14, 20, 14]
BOTH = "2 lines are accepted. Struck: 2 edges. Pending: 0 edges. Open: 4 edges.\n"


def weights(table, n=N):
    """A text with these weights, a line each."""
    head = [f"DIMENSION : {n}", "EDGE_WEIGHT_TYPE : EXPLICIT", "EDGE_WEIGHT_FORMAT : UPPER_ROW", "EDGE_WEIGHT_SECTION"]
    return text([*head, *map(str, table), "EOF"])


def without_line(said):
    """What a command says, without the line of the text that a sheet in binary has not."""
    if not isinstance(said, tuple):
        return said
    return tuple(re.sub(r", line \d+ of the text", "", one) if isinstance(one, str) else one for one in said)


class Sets(Folder):
    def setUp(self):
        super().setUp()
        self.marks = self.put("a.marks", packed([1] * 6))

    def call(self, *words):
        """Status, output and complaint of a command."""
        return Run(*words).all

    def assertRefused(self, found, number, where=""):
        """A call is refused by a number; the file is named where the board is at fault."""
        status, out, err = found
        self.assertEqual(status, 1)
        self.assertTrue((out or err.removeprefix("revosti: ")).startswith(f"{where}Refused, number {number}: {revosti.meaning(number)}"),
                        out + err)


class Limits(Sets):
    """Two tables and no coordinates: a low and a high length for each edge."""

    def mark(self, low, high, sheet=SHEET):
        """Marking the sheet between two texts."""
        return self.call("mark", "--board", low, "--high", high, sheet, "--marks", self.marks)

    def test_examples(self):
        wide = [(x // 10 * 13, y // 10 * 13) for x, y in SQUARE_POINTS]
        for file, table in ((HIGH, revosti.measure(N, 1, wide)), (LOW, TABLE)):
            n, found = revosti.read_tsplib(file.read_bytes())
            self.assertEqual((n, list(found)), (N, list(table)))

    def test_mark(self):
        self.assertEqual(self.mark(LOW, HIGH), (0, BOTH, ""))
        self.assertEqual(self.marks.read_bytes(), packed([1, 0, 1, 1, 0, 1]))

    def test_mark_too_wide(self):
        high = self.put("high.tsp", weights(WIDE))
        self.assertRefused(self.mark(LOW, high), 14)
        self.assertEqual(self.marks.read_bytes(), packed([1] * 6))

    def test_pairs(self):
        high = self.put("high.tsp", weights(WIDE))
        for more, said in (((), "No pair stands at 2 under 1-3.\n"), (("--high", HIGH), "No pair stands at 2 under 1-3.\n"),
                           (("--high", high), "2 pairs stand at 2 under 1-3.\npair 1-4\npair 3-4\n")):
            self.assertEqual(self.call("pairs", LOW, 1, 3, 2, *more), (0, said, ""))

    def test_low_above_high(self):
        for place in range(6):
            high = self.put("high.tsp", weights([length - (i == place) for i, length in enumerate(TABLE)]))
            self.assertRefused(self.mark(LOW, high), 25)
            self.assertRefused(self.call("pairs", LOW, 1, 3, 2, "--high", high), 25)

    def test_refused(self):
        few, five, long = (self.put(name, weights(*board)) for name, *board in
                           (("few.tsp", [1] * 3, 3), ("five.tsp", [20] * 10, 5), ("long.tsp", [2_000_001, *TABLE[1:]])))
        far = self.put("far.tsp", changed(NODES, 10, "4 0 1000001"))
        for low, high, *said in ((LOW, five, 2), (LOW, few, 1, f"--high {few}: "), (LOW, long, 5, f"--high {long}: "),
                                 (LOW, far, 4, f"--high {far}: "), (few, LOW, 1, f"{few}: "), (long, LOW, 5, f"{long}: "),
                                 (far, LOW, 4, f"{far}: ")):
            self.assertRefused(self.mark(low, high), *said)
            self.assertRefused(self.call("pairs", low, 1, 3, 2, "--high", high), *said)
        self.assertEqual(self.marks.read_bytes(), packed([1] * 6))

    def test_every_kind_beside_every_kind(self):
        lows = LOW, EXAMPLES / "square.tsp", self.put("low.sheet", binary(SQUARE_RECORDS))
        wide = Parts(1, N, [(x // 10 * 13, y // 10 * 13) for x, y in SQUARE_POINTS], [], b"")
        highs = HIGH, self.put("high.tsp", write_board(wide).encode()), self.put("high.sheet", join(wide))
        for low in lows:
            for high in highs:
                self.marks.write_bytes(packed([1] * 6))
                given = (low,) if low.suffix == ".sheet" else ("--board", low, SHEET)
                self.assertEqual(self.call("mark", *given, "--high", high, "--marks", self.marks), (0, BOTH, ""))
                self.assertEqual(self.call("pairs", low, 3, 1, 2, "--high", high), (0, "No pair stands at 2 under 1-3.\n", ""))

    def test_random(self):
        r, n, seen = random.Random(6), 7, set()
        for _ in range(12):
            low = [r.randint(50, 90) for _ in range(21)]
            high = [length + r.randint(0, 12) for length in low]
            files = self.put("low.tsp", weights(low, n)), self.put("high.tsp", weights(high, n))
            a, b, c = r.sample(range(1, n + 1), 3)
            said = self.call("pairs", files[0], a, b, c, "--high", files[1])[1]
            pairs = revosti.list_between(n, low, high, revosti.fresh_marks(n), a, b, c)
            self.assertEqual(said.splitlines()[1:], [f"pair {x}-{y}" for x, y in pairs])
            seen.add(len(pairs))
        self.assertGreater(len(seen), 2)

    def test_page(self):
        commands = re.findall(r"bin/revosti (\w+ [^`\n]*examples/wide_weights.tsp[^`\n]*)", PAGE)
        words = [[str(ROOT / word) if "/" in word else word for word in command.replace("board.marks", str(self.marks)).split()]
                 for command in commands]
        self.assertEqual([self.call(*given) for given in words], [(0, BOTH, ""), (0, "No pair stands at 2 under 1-3.\n", "")])


class OneBoard(Sets):
    """A text gives what the same board gives in a sheet: every command, every rule, by coordinates and by weights."""

    def everything(self, board, given, marks):
        """What all commands say of a board, and the sets that they leave. The sheet is given by these words."""
        said = [self.call("fresh", board, "--marks", self.marks, "--force"), self.marks.read_bytes()]
        self.marks.with_name("a.marks.fingerprint").unlink()
        said += [self.call("saving", board, *words) for words in (("exchange", 1, 3, 2, 4), ("move", 1, 2, 3, 4, 5),
                                                                  ("exchange", 1, 1, 2, 3))]
        said += [self.call("pairs", board, 1, 2, 3), self.call("pages", board), self.call("slip", *given)]
        for command in ("ask", "mark"):
            self.marks.write_bytes(marks)
            said += [self.call(command, *given, "--marks", self.marks), self.marks.read_bytes()]
        return [*said, self.call("pairs", board, 2, 3, 1, "--marks", self.marks), self.call("pages", board, "--marks", self.marks)]

    def test_same(self):
        r, n = random.Random(7), 6
        for rule in RULES:
            points = [(r.randint(0, 99), r.randint(0, 99)) for _ in range(n)]
            table, fresh = revosti.measure(n, rule, points), revosti.fresh_marks(n)
            bare = [(a, b, c) for a in range(1, n) for b in range(a + 1, n + 1) for c in range(1, n + 1)
                    if c not in (a, b) and not revosti.list_pairs(n, table, fresh, a, b, c)]
            a, b, c = bare[0]
            parts = Parts(rule, n, points, [Record(1, a, b, 0, 0, c, 0, 2), Record(1, a, b, 0, 0, c, 0, 0)], b"")
            sheet, lines = self.put("a.sheet", join(parts)), self.put("a.txt", unpack_beside(parts).encode())
            wanted = self.everything(sheet, (sheet,), fresh)
            self.assertIn("refused by 12, record 2, 1 line accepted", wanted[7][1])
            for data in (write_board(parts).encode(), weights(table, n)):
                board = self.put("a.tsp", data)
                found = self.everything(board, ("--board", board, lines), fresh)
                self.assertEqual([without_line(one) for one in found], [without_line(one) for one in wanted], rule)

    def test_lengths_of_no_coordinates(self):
        table = [7, 900_000, 0, 2_000_000, 3, 5]
        board = self.put("a.tsp", weights(table))
        edges = [(a, b) for a in range(1, N) for b in range(a + 1, N + 1)]
        self.assertEqual(self.call("pages", board), (0, "".join(f"{a:>3} {b:>3} {d:>7} open    \n" for (a, b), d in zip(edges, table)), ""))
        saving = revosti.exchange_saving(N, table, 1, 3, 2, 4)
        self.assertEqual(self.call("saving", board, "exchange", 1, 3, 2, 4)[1].splitlines()[0], f"Exchanging 1-3 and 2-4 saves {saving}.")
        marks = self.put("b.marks", packed(some(N, 3)))
        shown = self.call("pages", board, "--marks", marks)[1]
        self.assertEqual(shown.encode(), revosti.write_page(N, table, marks.read_bytes(), 1))

    def test_asked_over_weights(self):
        self.assertEqual(self.call("ask", "--board", LOW, SHEET, "--marks", self.marks),
                         (0, "2 lines are accepted. Struck: 0 edges. Pending: 2 edges. Open: 4 edges.\n", ""))
        self.assertEqual(self.call("confirm", "--marks", self.marks), (0, "Struck: 2 edges. Pending: 0 edges. Open: 4 edges.\n", ""))

    def test_refused(self):
        texts = ((weights([1] * 3, 3), 1), (weights([0] * 16290, 181), 1), (changed(NODES, 7, "1 1000001 0"), 4),
                 (weights([*TABLE[:5], 2_000_001]), 5))
        for data, number in texts:
            board = self.put("a.tsp", data)
            for words in (("fresh", board, "--marks", self.folder / "new"), ("saving", board, "exchange", 1, 3, 2, 4),
                          ("pairs", board, 1, 3, 2), ("pages", board),
                          ("slip", "--board", board, SHEET),
                          *((name, "--board", board, SHEET, "--marks", self.marks) for name in ("mark", "ask"))):
                self.assertRefused(self.call(*words), number, f"{board}: ")
        self.assertEqual(self.marks.read_bytes(), packed([1] * 6))

    def test_faulty(self):
        board = self.put("a.tsp", changed(WEIGHTS, 9, "10 1.5"))
        said = (2, "", f'revosti: {board}, line 9: expected 3 more weights, found "10 1.5"; '
                       'whole weights are asked for, in digits alone, and "1.5" is none\n')
        for words in (("fresh", board, "--marks", self.marks), ("saving", board, "exchange", 1, 3, 2, 4), ("pairs", board, 1, 3, 2),
                      ("pages", board),
                      ("slip", "--board", board, SHEET), ("mark", "--board", board, SHEET, "--marks", self.marks),
                      ("mark", "--board", LOW, "--high", board, SHEET, "--marks", self.marks), ("pairs", LOW, 1, 3, 2, "--high", board)):
            self.assertEqual(self.call(*words), said, words)
