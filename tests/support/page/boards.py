"""Boards of many sizes with what calls on them are made of: tables, sets of marks, sheets, tours, texts, pages."""

from itertools import combinations
from struct import pack, unpack_from

from tests.support import EXAMPLES, texts
from tests.support.packing import packed
from tests.support.page.sheet_maker import Maker, sheet_bytes
from tests.support.plain import RULES

MADE = (4, 4, 5, 5, 5, 6, 6, 6, 7, 7, 7, 8, 8, 8, 8, 9, 9, 9, 9, 10, 10, 12, 12)  # boards with sheets of every kind
WIDE = (30, 59, 60, 61, 62, 97, 179)  # marking and listing have smaller arrays up to 60 points
QUESTIONS = 2000  # for the sheet of a board
OPEN, STRUCK, PENDING = 1, 0, 2


def nodes_text(n, rule, numbers):
    """A TSPLIB text with these coordinates."""
    nodes = [f"{place + 1} {numbers[2 * place]} {numbers[2 * place + 1]}" for place in range(n)]
    return texts.text([f"DIMENSION : {n}", f"EDGE_WEIGHT_TYPE : {rule}", "NODE_COORD_SECTION", *nodes, "EOF"])


def weights_text(n, weights):
    """A TSPLIB text with these lengths."""
    return texts.text([f"DIMENSION : {n}", "EDGE_WEIGHT_TYPE : EXPLICIT", "EDGE_WEIGHT_FORMAT : UPPER_ROW", "EDGE_WEIGHT_SECTION",
                       *map(str, weights), "EOF"])


class Board:
    """A board with a table of any kind."""

    def __init__(self, native, rng, n):
        self.native, self.rng, self.n = native, rng, n
        self.edges = n * (n - 1) // 2
        self.marks_size = (self.edges + 3) // 4
        reach = rng.choice((3, 30, 1000, 1_000_000))
        self.numbers = [rng.randint(0, reach) for _ in range(2 * n)]
        self.rule = rng.randint(1, 5)
        self.coordinates = pack(f"<{2 * n}I", *self.numbers)
        _, (_, measured) = native("revosti_measure", n, self.rule, self.coordinates, bytes(4 * self.edges))
        weights = pack(f"<{self.edges}I", *(rng.randint(0, rng.choice((9, 2_000_000))) for _ in range(self.edges)))
        self.table = rng.choice((measured, measured, measured, weights))
        self.finish()

    def finish(self):
        """What follows from the table."""
        self.lengths = unpack_from(f"<{self.edges}I", self.table)
        self.tables = [(self.table, self.table)] + [self.between() for _ in range(3)]
        self.sets = [self.fresh()] + [self.some((OPEN,) * k + (STRUCK,)) for k in (1, 3, 9)]
        self.asked = [self.some((OPEN,) * k + (STRUCK, PENDING)) for k in (0, 1, 3, 9)]
        self.sheets = self.make_sheets()
        self.texts = [nodes_text(self.n, rule, self.numbers) for rule in RULES.values()] + [weights_text(self.n, self.lengths)]
        self.pages = [self.page(self.rng.randint(1, -(-self.edges // 60))) for _ in range(3)]

    def between(self):
        """Low and high lengths around the table's."""
        slack = self.rng.choice((0, 1, 5))
        low = (max(0, length - self.rng.randint(0, slack)) for length in self.lengths)
        high = (min(2_000_000, length + self.rng.randint(0, slack)) for length in self.lengths)
        return pack(f"<{self.edges}I", *low), pack(f"<{self.edges}I", *high)

    def fresh(self):
        return self.native("revosti_fresh_marks", self.n, bytes(self.marks_size))[1][0]

    def some(self, values):
        """A packed set of such marks."""
        return bytes(packed([self.rng.choice(values) for _ in range(self.edges)]))

    def make_sheets(self):
        """The sheet that is accepted, half of all, and sheets that are refused, of each number which was met."""
        if self.n > max(MADE):
            return [sheet_bytes(self.plain_lines())]
        maker = Maker(self.native, self.rng, self.n, self.table, self.fresh(), QUESTIONS).fill()
        whole = sheet_bytes(maker.records or self.plain_lines())
        for _ in range(4):
            maker.add_deep(1, 2, 7)
        others = [sheet for kept in maker.refused.values() for sheet in kept]
        return [whole] * len(others) + others

    def plain_lines(self):
        """Lines whose first split has no pair at all, as many as are found soon; or one that has."""
        every = sorted(zip(self.lengths, combinations(range(1, self.n + 1), 2)), reverse=True)[:60]
        maker = Maker(self.native, self.rng, self.n, self.table, self.fresh(), 0)
        cuts = [(a, b, c) for _, (a, b) in every for c in self.rng.sample(range(1, self.n + 1), 4) if maker.pairs(a, b, c) == 0]
        lines = list({(a, b): (a, b, c) for a, b, c in cuts}.values()) or [(1, 2, 3)]
        return [[1, a, b, 0, 0, c, 0, place + 2 if place + 1 < len(lines) else 0] for place, (a, b, c) in enumerate(lines)]

    def page(self, number):
        """A page of the wall list, with its number."""
        answer, (_, _, text) = self.native("revosti_write_page", self.n, self.table, self.rng.choice(self.asked), number, bytes(1500))
        return number, text[:answer >> 16]

    def tour(self):
        """A tour."""
        return pack(f"<{self.n}H", *self.rng.sample(range(1, self.n + 1), self.n))


class Largest(Board):
    """The board of examples/board-180.sheet, whose sheet has 4,000 records."""

    def __init__(self, native, rng):
        data = (EXAMPLES / "board-180.sheet").read_bytes()
        self.native, self.rng = native, rng
        self.rule, self.n = unpack_from("<2I", data)
        self.edges = self.n * (self.n - 1) // 2
        self.marks_size = (self.edges + 3) // 4
        self.numbers = unpack_from(f"<{2 * self.n}I", data, 8)
        self.coordinates, self.sheet = data[8:8 + 8 * self.n], data[8 + 8 * self.n:]
        _, (_, self.table) = native("revosti_measure", self.n, self.rule, self.coordinates, bytes(4 * self.edges))
        self.finish()

    def make_sheets(self):
        return [self.sheet]


def boards(native, rng):
    """All boards: small ones, wide ones, and the largest."""
    small = [Board(native, rng, n) for n in MADE]
    return small, [Board(native, rng, n) for n in WIDE] + [Largest(native, rng)]
