"""Cases with a new order of a stretch (02, Paper 10) over the library: the example and each damage of it, through every function that takes
a sheet; random boards against the plain rules; and no shortest tour loses an edge."""

import random
import unittest
from itertools import permutations

from tests.support.packing import unpacked
from tests.support.plain import Board, edge, stretch
from tests.support import ROOT

import revosti
from revosti_command.parts import split

N, STRETCH, POINT = 6, 4, 5
PARTS = split((ROOT / "examples/stretch.bin").read_bytes())
RECORDS = [list(record) for record in PARTS.records]
KIND, A, B, U, V, C, D, NEXT = range(8)
TABLE = revosti.measure(N, PARTS.rule, PARTS.points)

# number, record at fault, and what is other in the records of the example: (record, field, value)
DAMAGED = [
    (24, 3, [(4, A, 3), (5, A, 2), (6, A, 1), (7, A, 6)]), (24, 3, [(4, A, 1), (7, A, 6)]),
    (23, 3, [(5, A, 6)]), (23, 3, [(6, NEXT, 0)]), (23, 3, [(7, A, 5)]), (23, 3, [(3, D, 0)]), (23, 3, [(3, D, 5)]),
    (23, 3, [(3, V, 4)]), (23, 3, [(3, V, 3)]), (23, 3, [(3, V, 1)]), (23, 3, [(3, V, 4), (4, KIND, 9)]),
    (10, 3, [(3, C, 1)]), (10, 5, [(5, B, 1)]), (10, 5, [(5, KIND, STRETCH)]), (10, 4, [(4, KIND, 3)]), (10, 3, [(3, KIND, POINT)]),
    *[(10, 7, [(7, field, 2)]) for field in (B, U, V, C, D)], (10, 1, [(1, KIND, STRETCH)]), (10, 1, [(1, KIND, POINT)]),
    (11, 6, [(6, A, 7)]), (11, 6, [(6, A, 0)]), (11, 3, [(3, U, 7)]), (11, 3, [(3, V, 0)]), (11, 3, [(3, A, 5)]),
    (9, 5, [(5, NEXT, 5)]), (9, 3, [(3, D, 3)]), (9, 3, [(3, NEXT, 7)]), (8, 5, [(5, NEXT, 8)]), (8, 3, [(3, D, 8)]),
    (14, 3, [(3, A, 2)]), (14, 3, [(3, B, 6)]),
]


def damaged(changes):
    """The records of the example with other fields."""
    records = [list(record) for record in RECORDS]
    for number, field, value in changes:
        records[number - 1][field] = value
    return records


def verdict(call, *arguments):
    """Number, record and lines accepted of a sheet handed in."""
    try:
        return 0, 0, call(*arguments)
    except revosti.Refusal as found:
        return found.number, found.record, found.lines


def at_a_desk(records):
    """Number, record and lines of the last turn of a desk, and its marks."""
    desks, marks = revosti.open_desks(), revosti.fresh_marks(N)
    revosti.hand_in(desks, 3, N, TABLE, marks, records)
    last = None
    while revosti.next_desk(desks):
        last = revosti.turn(desks, N, TABLE, marks, records)
    return (last.refusal, last.record, last.lines), marks


class Example(unittest.TestCase):
    """The sheet of six points, and each damage of it, by every function that marks."""

    def verdicts(self, records):
        """What every function says of a sheet, with the marks that it leaves; all agree."""
        marks, asked, between = (revosti.fresh_marks(N) for _ in range(3))
        found = verdict(revosti.mark_sheet, N, TABLE, marks, records)
        self.assertEqual(verdict(revosti.ask_sheet, N, TABLE, asked, records), found)
        self.assertEqual(verdict(revosti.mark_between, N, TABLE, TABLE, between, records), found)
        self.assertEqual(at_a_desk(records), (found, marks))
        self.assertEqual(between, marks)
        self.assertEqual([bool(mark % 2) for mark in unpacked(asked)], [bool(mark % 2) for mark in unpacked(marks)])
        return found, marks

    def test_accepted(self):
        found, marks = self.verdicts(RECORDS)
        self.assertEqual(found, (0, 0, 1))
        self.assertEqual(unpacked(marks)[:15], [0] + [1] * 14)
        self.assertEqual(revosti.check_tour(N, TABLE, marks, [1, 2, 3, 4, 5, 6]), (56, False))  # 3-optimal
        self.assertEqual(revosti.check_tour(N, TABLE, marks, [1, 3, 2, 6, 4, 5]), (55, True))   # shortest

    def test_damaged(self):
        self.assertLessEqual({8, 9, 10, 11, 14, 23, 24}, {number for number, *_ in DAMAGED})
        for number, record, changes in DAMAGED:
            with self.subTest(changes):
                found, marks = self.verdicts(damaged(changes))
                self.assertEqual((found, marks), ((number, record, 0), revosti.fresh_marks(N)))

    def test_a_chain_longer_than_any_stretch(self):
        for count in (5, 13, 14, 15, 3996):
            chain = [[POINT, (6, 2, 3, 1)[i % 4], 0, 0, 0, 0, 0, 5 + i if i + 1 < count else 0] for i in range(count)]
            self.assertEqual(self.verdicts([*RECORDS[:3], *chain])[0], (23, 3, 0))
            chain[-1][A] = 7
            self.assertEqual(self.verdicts([*RECORDS[:3], *chain])[0], (11, 3 + count, 0))

    def test_lines_before_it_stay(self):
        behind = [[*record[:D], record[D] and record[D] + (record[KIND] != POINT), record[NEXT] and record[NEXT] + 1] for record in RECORDS]
        self.assertEqual(self.verdicts([[1, 1, 4, 0, 0, 5, 0, 2], *behind])[0], (0, 0, 2))
        behind[2][V] = 3
        found, marks = self.verdicts([[1, 1, 4, 0, 0, 5, 0, 2], *behind])
        self.assertEqual((found, unpacked(marks)[:15]), ((23, 4, 1), [1, 1, 0] + [1] * 12))

    def test_low_and_high(self):
        def longer(e, by):
            return [length + by * (e == other) for other, length in zip(EDGES, TABLE)]
        for low, high, number in ((TABLE, longer((4, 6), 1), 24), (longer((1, 6), -1), TABLE, 24), (longer((2, 3), -1), TABLE, 24),
                                  (TABLE, longer((1, 6), 1), 0)):
            self.assertEqual(verdict(revosti.mark_between, N, low, high, revosti.fresh_marks(N), RECORDS)[0], number)

    def test_slips(self):
        for changes, number in (([(5, A, 6)], 23), ([(4, A, 1), (7, A, 6)], 24)):
            slip = revosti.new_slip(N, TABLE, revosti.fresh_marks(N), damaged(changes))
            self.assertEqual(revosti.examiner_view(slip), bytes([number, 0, 3, 0, 0, 0]))
            self.assertEqual(revosti.candidate_view(slip), bytes([255, 0, 0, 0, 0, 0]))


EDGES = [(a, b) for a in range(1, N + 1) for b in range(a + 1, N + 1)]


class Boards(unittest.TestCase):
    """Random boards: a case two splits deep, closed by an order between two points, against the plain rules."""

    def case(self, board, a, b, c, d):
        """The records of a line and of a case with the first pairs that stand, and K with the pair of a case in it; None where no pair
        stands."""
        k, records = {edge(a, b)}, [[1, a, b, 0, 0, c, 2, 0]]
        pair = next(iter(board.standing(k, c)), None)
        if pair is None:
            return None
        k, records = k | {edge(c, x) for x in pair if x != c}, [*records, [2, *pair, 0, 0, d, 3, 0]]
        pair = next(iter(board.standing(k, d)), None)
        return pair and (records, pair, k | {edge(d, x) for x in pair if x != d})

    def judged(self, board, case, u, v, points):
        """What the case is refused by itself, or 0, by the library and by the plain rules, and the marks that are left."""
        records, pair, k = case
        inner, marks = stretch(k, u, v), revosti.fresh_marks(board.n)
        chain = [[POINT, p, 0, 0, 0, 0, 0, 4 + i if i < len(points) else 0] for i, p in enumerate(points, 1)]
        sheet = [*records, [STRETCH, *pair, u, v, 0, 4 if points else 0, 0], *chain]
        table = revosti.measure(board.n, board.rule, board.points)
        number, record, _ = verdict(revosti.mark_sheet, board.n, table, marks, sheet)
        shorter = inner and board.path_length((u, *points, v)) < board.path_length((u, *inner, v))
        wanted = 23 if not inner or sorted(points) != sorted(inner) else 0 if shorter else 24
        self.assertEqual(number if record == 3 and number in (23, 24) else 0, wanted, (board.points, board.rule, sheet))
        return wanted, number, marks

    def test_random_boards(self):
        r, seen = random.Random(10), {23: 0, 24: 0}
        while min(seen.values()) < 200:
            n = r.choice((6, 7))
            board = Board(r.choice((1, 4)), [(r.randrange(20), r.randrange(20)) for _ in range(n)], ())
            case = self.case(board, *r.sample(range(1, n + 1), 2), r.randrange(1, n + 1), r.randrange(1, n + 1))
            if case is None:
                continue
            u, v = r.choice(sorted(case[2]))[0], r.randrange(1, n + 1)
            points = list(stretch(case[2], u, v)) or r.sample(range(1, n + 1), 2)
            r.shuffle(points)
            number, *_ = self.judged(board, case, u, v, r.choice([points] * 5 + [points[1:], [*points, r.randrange(1, n + 1)]]))
            seen[number] = seen.get(number, 0) + 1

    def test_boards_near_the_example(self):
        r, accepted = random.Random(11), 0
        for _ in range(600):
            board = Board(1, [(x + r.randrange(3), y + r.randrange(3)) for x, y in PARTS.points], ())
            case = self.case(board, 1, 2, 3, 6)
            inner = case and stretch(case[2], 4, 5)
            for order in permutations(inner or ()) if case else ():
                wanted, number, marks = self.judged(board, case, 4, 5, order)
                self.assertTrue(wanted or number in (0, 14))  # settled; 14 where more pairs stand
                if number == 0:
                    accepted += 1
                    self.shortest_stay(board, marks)
        self.assertGreater(accepted, 20)

    def shortest_stay(self, board, marks):
        """Every shortest tour has its edges open."""
        table, tours = revosti.measure(6, 1, board.points), [(1, *rest) for rest in permutations(range(2, 7))]
        found = [revosti.check_tour(6, table, marks, tour) for tour in tours]
        least = min(tour.length for tour in found)
        self.assertTrue(all(tour.open for tour in found if tour.length == least), board.points)
