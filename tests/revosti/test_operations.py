"""Each operation over the library: its answers, its refusals, what it changes."""

import contextlib
import pickle
import random
import unittest
from itertools import combinations

from tests.support import ROOT
from tests.support.packing import packed, unpacked
from tests.support.plain import Board, length_of
from tests.support.square import LINES, N, POINTS, TABLE

import revosti
from revosti_command.marks import marked, read_marks
from revosti_command.parts import Record, split
from revosti_command.read import pack

HAND_IN = (revosti.mark_sheet, revosti.ask_sheet)
SETTLE = (revosti.confirm, revosti.withdraw)
SAVINGS = ((revosti.exchange_saving, (1, 3, 2, 4)), (revosti.move_saving, (3, 1, 4, 1, 2)),
           (revosti.crossing_saving, (1, 3, 2, 4, 1, 3, 3, 1)))


def verdict(call, *arguments):
    """Number, record and lines accepted of a sheet handed in."""
    try:
        return 0, 0, call(*arguments)
    except revosti.Refusal as found:
        return found.number, found.record, found.lines


def nine():
    """A board of nine points with a sheet that strikes 27 edges: n, table, sheet."""
    parts = pack((ROOT / "tests/command/nine.txt").read_text()).parts
    return parts.n, revosti.measure(parts.n, parts.rule, parts.points), parts.records


def count(n, marks, mark):
    """How many edges of a packed set have a mark."""
    return unpacked(marks)[:n * (n - 1) // 2].count(mark)


class Operations(unittest.TestCase):
    def refused(self, number, call, *arguments, record=0, lines=0):
        """The call is refused so, and leaves what it gets as it was."""
        before = pickle.dumps(arguments)
        with self.assertRaises(revosti.Refusal) as caught:
            call(*arguments)
        found = caught.exception
        self.assertEqual((found.number, found.record, found.lines), (number, record, lines))
        if lines == 0:
            self.assertEqual(pickle.loads(before), arguments)
        return found


class Measure(Operations):
    def test_square(self):
        flat = [number for point in POINTS for number in point]
        for coordinates in (POINTS, flat, list(map(list, POINTS)), tuple(flat)):
            self.assertEqual(revosti.measure(N, 1, coordinates), TABLE)

    def test_rules(self):
        points = [(0, 0), (1, 1), (1, 3), (5, 0)]
        for rule, table in ((1, [1, 3, 5, 2, 4, 5]), (2, [2, 4, 5, 2, 5, 5]), (3, [1, 1, 2, 1, 2, 2]), (4, [2, 4, 5, 2, 5, 7]),
                            (5, [1, 3, 5, 2, 4, 4])):
            self.assertEqual(revosti.measure(N, rule, points).tolist(), table, rule)

    def test_rules_against_a_plain_reading(self):
        r, n = random.Random(5), 20
        for most in (4, 40, 10**6):
            points = [(r.randint(0, most), r.randint(0, most)) for _ in range(n)]
            for rule in range(1, 6):
                self.assertEqual(revosti.measure(n, rule, points).tolist(), [length_of(rule, p, q) for p, q in combinations(points, 2)], rule)

    def test_largest(self):
        corners = [(0, 0), (10**6, 10**6)] * 90
        for rule, longest in ((1, 1414214), (2, 1414214), (3, 447214), (4, 2000000), (5, 1000000)):
            table = revosti.measure(180, rule, corners)
            self.assertEqual((len(table), set(table)), (16110, {0, longest}))

    def test_refusals(self):
        far = [*POINTS[:3], (0, 10**6 + 1)]
        for number, arguments in ((1, (3, 1, POINTS[:3])), (1, (181, 9, [])), (1, (2**32 - 1, 1, POINTS)), (1, (0, 1, [])),
                                  (2, (N, 9, POINTS[:3])), (2, (N, 1, [0] * 7)), (2, (N, 1, [0] * 9)), (2, (5, 1, POINTS)),
                                  (3, (N, 0, far)), (3, (N, 6, POINTS)), (3, (N, 2**32 - 1, POINTS)), (4, (N, 1, far)),
                                  (4, (N, 5, far)), (4, (N, 4, [2**32 - 1] * 8))):
            with self.subTest(arguments):
                self.refused(number, revosti.measure, *arguments)


class FreshMarks(Operations):
    def test_all_are_open(self):
        for n in (4, 5, 180):
            marks = revosti.fresh_marks(n)
            self.assertIsInstance(marks, bytearray)
            self.assertEqual(marks, packed([revosti.OPEN] * (n * (n - 1) // 2)))

    def test_bytes_of_85(self):
        for n, last in ((9, 85), (8, 85), (7, 1), (4, 5), (6, 21), (180, 5)):
            marks = revosti.fresh_marks(n)
            self.assertEqual((set(marks[:-1]), marks[-1]), ({85}, last))

    def test_refusals(self):
        for n in (0, 3, 181, 2**32 - 1):
            self.refused(1, revosti.fresh_marks, n)


class MarkSheet(Operations):
    """Marking, and the refusals that it shares with asking."""

    def setUp(self):
        self.marks = revosti.fresh_marks(N)

    def test_marks_are_changed_in_place(self):
        self.assertEqual(revosti.mark_sheet(N, TABLE, self.marks, LINES), 2)
        self.assertEqual(self.marks, packed([1, 0, 1, 1, 0, 1]))

    def test_marks_are_lent_for_the_call_only(self):
        for sheet in (LINES, LINES[1:]):
            with contextlib.suppress(revosti.Refusal):
                revosti.mark_sheet(N, TABLE, self.marks, sheet)
            self.marks.append(0)
            del self.marks[-1]

    def test_records_of_any_kind_of_list(self):
        self.assertEqual(revosti.mark_sheet(N, tuple(TABLE), self.marks, [Record(*LINES[0]), tuple(LINES[1])]), 2)

    def test_refused_at_once(self):
        struck, pending, wrong = packed([1, 0, 1, 1, 0, 1]), packed([1, 2, 1, 1, 0, 1]), packed([1, 2, 1, 1, 1, 3])
        for number, arguments in ((1, (3, [], wrong, [])), (2, (N, TABLE[1:], wrong, [])), (2, (5, TABLE, struck, LINES)),
                                  (5, (N, [2_000_001] * 6, wrong, [])), (6, (N, TABLE, bytearray(), [])), (6, (N, TABLE, pending[:1], [])),
                                  (6, (N, TABLE, wrong, [])), (20, (N, TABLE, pending, [])), (20, (N, TABLE, pending, LINES)),
                                  (20, (N, TABLE, packed([1] * 5 + [2]), LINES)), (7, (N, TABLE, struck, [])),
                                  (7, (N, TABLE, struck, LINES * 2001))):
            for call in HAND_IN:
                with self.subTest((call, number)):
                    self.refused(number, call, *arguments)

    def test_refused_at_a_record(self):
        first = LINES[0]
        for number, record, sheet in (
                (8, 1, [[1, 1, 3, 0, 0, 2, 2, 0]]), (9, 1, [[1, 1, 3, 0, 0, 2, 1, 0]]), (10, 1, [[2, 1, 3, 0, 0, 2, 0, 0]]),
                (10, 1, [[1, 1, 3, 0, 65535, 2, 0, 0]]), (11, 1, [[1, 1, 5, 0, 0, 2, 0, 0]]), (11, 1, [[1, 3, 3, 0, 0, 2, 0, 0]]),
                (14, 1, [[1, 1, 2, 0, 0, 3, 0, 0]]), (14, 2, [[1, 1, 2, 0, 0, 3, 2, 0], [2, 4, 1, 0, 0, 1, 0, 0]]),
                (15, 4, [[1, 1, 2, 0, 0, 3, 4, 0], first, first, [3, 1, 4, 1, 2, 3, 3, 0]])):
            for call in HAND_IN:
                with self.subTest((call, sheet)):
                    self.refused(number, call, N, TABLE, self.marks, sheet, record=record)

    def test_point_of_an_earlier_split_moves(self):
        table, marks = revosti.measure(5, 1, [*POINTS, (0, 5)]), revosti.fresh_marks(5)
        for number, saving, move, sheet in (
                (14, 4, (1, 2, 3, 4, 5), [[1, 1, 2, 0, 0, 3, 2, 0], [2, 1, 4, 0, 0, 4, 3, 0], [3, 3, 5, 3, 5, 3, 5, 0]]),
                (15, 0, (5, 1, 2, 3, 4), [[1, 2, 3, 0, 0, 5, 2, 0], [2, 1, 2, 0, 0, 3, 3, 0], [3, 2, 4, 2, 4, 2, 4, 0]])):
            self.assertEqual(revosti.move_saving(5, table, *move), saving)
            for call in HAND_IN:
                self.refused(number, call, 5, table, marks, sheet, record=3)

    def test_a_refused_sheet_keeps_its_lines(self):
        self.refused(9, revosti.mark_sheet, N, TABLE, self.marks, [[1, 1, 3, 0, 0, 2, 0, 1]], record=1, lines=1)
        self.assertEqual(self.marks, packed([1, 0, 1, 1, 1, 1]))
        self.refused(12, revosti.mark_sheet, N, TABLE, self.marks, LINES, record=1)
        again = [LINES[1][:7] + [2], LINES[1]]
        self.refused(12, revosti.mark_sheet, N, TABLE, self.marks, again, record=2, lines=1)
        self.assertEqual(self.marks, packed([1, 0, 1, 1, 0, 1]))

    def test_nine_points(self):
        n, table, sheet = nine()
        marks = revosti.fresh_marks(n)
        self.assertEqual(revosti.mark_sheet(n, table, marks, sheet), 27)
        self.assertEqual(count(n, marks, revosti.STRUCK), 27)

    def test_180_points(self):
        parts = split((ROOT / "examples/board-180.sheet").read_bytes())
        tour = list(map(int, (ROOT / "examples/board-180.tour").read_text().split(",")))
        table, marks = revosti.measure(parts.n, parts.rule, parts.points), revosti.fresh_marks(parts.n)
        lines = revosti.mark_sheet(parts.n, table, marks, parts.records)
        self.assertEqual((lines, count(parts.n, marks, revosti.STRUCK)), (1281, 1281))
        length = sum(table[revosti.place(parts.n, a, b)] for a, b in zip(tour, tour[1:] + tour[:1]))
        self.assertEqual(revosti.check_tour(parts.n, table, marks, tour), (length, True))


class AskSheet(Operations):
    def setUp(self):
        self.marks = revosti.fresh_marks(N)

    def test_strikes_are_pending(self):
        self.assertEqual(revosti.ask_sheet(N, TABLE, self.marks, LINES), 2)
        self.assertEqual(self.marks, packed([1, 2, 1, 1, 2, 1]))

    def test_struck_marks_stay(self):
        self.marks = packed([1, 0, 1, 1, 1, 1])
        self.assertEqual(revosti.ask_sheet(N, TABLE, self.marks, LINES[1:]), 1)
        self.assertEqual(self.marks, packed([1, 0, 1, 1, 2, 1]))

    def test_a_sheet_that_stops_keeps_its_lines_pending(self):
        twice = [LINES[0], LINES[0][:7] + [0]]
        self.refused(12, revosti.ask_sheet, N, TABLE, self.marks, twice, record=2, lines=1)
        self.assertEqual(self.marks, packed([1, 2, 1, 1, 1, 1]))
        self.refused(20, revosti.ask_sheet, N, TABLE, self.marks, LINES[1:])
        revosti.withdraw(N, self.marks)
        self.assertEqual(self.marks, revosti.fresh_marks(N))

    def test_marks_can_be_drawn(self):
        revosti.ask_sheet(N, TABLE, self.marks, LINES)
        self.assertEqual(marked(N, read_marks(bytes(self.marks), N), revosti.PENDING), [(1, 3), (2, 4)])

    def agrees(self, n, table, marks, sheet):
        """Asking gives the verdict of marking, confirming its marks, and withdrawing those from before. The verdict."""
        direct, asked = bytearray(marks), bytearray(marks)
        found = verdict(revosti.mark_sheet, n, table, direct, sheet)
        self.assertEqual(verdict(revosti.ask_sheet, n, table, asked, sheet), found)
        self.assertEqual(count(n, asked, revosti.PENDING), found[2])
        back = bytearray(asked)
        for call, settled in ((revosti.confirm, asked), (revosti.withdraw, back)):
            if found[2]:
                call(n, settled)
            else:
                self.refused(21, call, n, settled)
        self.assertEqual((asked, back), (direct, marks))
        return found

    def test_as_marking(self):
        n, table, sheet = nine()
        marks = revosti.fresh_marks(n)
        found = [self.agrees(n, table, marks, sheet[:size]) for size in range(len(sheet) + 1)]
        self.assertEqual(found[-1], (0, 0, 27))
        self.assertEqual({number for number, _, _ in found}, {0, 7, 8})
        self.assertEqual({lines for _, _, lines in found}, set(range(28)))

    def test_as_marking_over_struck_marks(self):
        n, table, sheet = nine()
        marks = revosti.fresh_marks(n)
        verdict(revosti.mark_sheet, n, table, marks, sheet[:20])
        self.assertGreater(count(n, marks, revosti.STRUCK), 0)
        self.assertEqual(self.agrees(n, table, marks, sheet), (12, 1, 0))
        self.assertEqual(self.agrees(n, table, marks, []), (7, 0, 0))


class Settle(Operations):
    """Confirming and withdrawing."""

    def test_pending_marks_alone_are_changed(self):
        for call, left in ((revosti.confirm, [0, 1, 0, 0, 1, 0]), (revosti.withdraw, [1, 1, 0, 1, 1, 0])):
            marks = packed([2, 1, 0, 2, 1, 0])
            self.assertIsNone(call(N, marks))
            self.assertEqual(marks, packed(left))

    def test_one_pending_mark_is_enough(self):
        for place in range(6):
            for call, mark in ((revosti.confirm, revosti.STRUCK), (revosti.withdraw, revosti.OPEN)):
                marks = packed([revosti.PENDING if at == place else revosti.OPEN for at in range(6)])
                call(N, marks)
                self.assertEqual(marks, packed([mark if at == place else revosti.OPEN for at in range(6)]))

    def test_refusals(self):
        pending, wrong = packed([2] * 6), packed([1] * 5 + [3])
        for number, arguments in ((1, (3, packed([2] * 3))), (1, (181, wrong)), (1, (0, bytearray())), (6, (N, pending[:1])),
                                  (6, (5, pending)), (6, (N, bytearray())), (6, (N, wrong)), (6, (N, packed([2] * 6 + [0, 2]))),
                                  (21, (N, revosti.fresh_marks(N))), (21, (N, bytearray(2))), (21, (N, packed([0, 1] * 3)))):
            for call in SETTLE:
                with self.subTest((call, arguments)):
                    self.refused(number, call, *arguments)


class ListPairs(Operations):
    def setUp(self):
        self.marks = revosti.fresh_marks(N)

    def test_square(self):
        self.assertEqual(revosti.list_pairs(N, TABLE, self.marks, 1, 2, 3), [(1, 4), (2, 4)])
        self.assertEqual(revosti.list_pairs(N, TABLE, self.marks, 1, 3, 2), [])
        self.assertEqual(self.marks, revosti.fresh_marks(N))

    def test_marks_may_be_bytes(self):
        self.assertEqual(revosti.list_pairs(N, TABLE, bytes(packed([1, 0, 1, 1, 1, 1])), 2, 1, 3), [(2, 4)])

    def test_pending_edges_are_open(self):
        marks = packed([1, 2, 1, 1, 1, 1])
        self.assertEqual(revosti.list_pairs(N, TABLE, marks, 1, 2, 3), [(1, 4), (2, 4)])
        self.assertEqual(revosti.list_pairs(N, TABLE, marks, 1, 3, 2), [])

    def test_against_a_plain_reading(self):
        r, n = random.Random(3), 7
        for _ in range(20):
            points = [(r.randrange(30), r.randrange(30)) for _ in range(n)]
            edges = list(combinations(range(1, n + 1), 2))
            struck = r.sample(edges, r.randrange(8))
            board, table = Board(1, points, struck), revosti.measure(n, 1, points)
            marks = packed([0 if edge in struck else r.choice((1, 2)) for edge in edges])
            for (a, b), c in ((e, c) for e in edges if e not in struck for c in range(1, n + 1)):
                self.assertEqual(revosti.list_pairs(n, table, marks, a, b, c), board.standing({(a, b)}, c), (points, struck, a, b, c))

    def test_room_for_every_pair(self):
        points = [(0, 0)] * 180
        table, marks = revosti.measure(180, 1, points), revosti.fresh_marks(180)
        pairs = revosti.list_pairs(180, table, marks, 1, 2, 3)
        others = [p for p in range(1, 181) if p != 3]
        self.assertEqual(pairs, [pair for pair in combinations(others, 2) if pair != (1, 2)])

    def test_refusals(self):
        struck, points = packed([1, 0, 1, 1, 1, 1]), (1, 2, 3)
        for number, arguments in ((1, (181, [], struck, 0, 0, 0)), (2, (N, TABLE * 2, bytearray(), *points)),
                                  (5, (N, [2_000_001] * 6, bytearray(), *points)), (6, (N, TABLE, bytearray(), 0, 0, 0)),
                                  (6, (N, TABLE, packed([1] * 5 + [3]), 0, 0, 0)), (11, (N, TABLE, struck, 0, 3, 2)),
                                  (11, (N, TABLE, struck, 2, 2, 3)), (11, (N, TABLE, struck, 1, 3, 65535)),
                                  (12, (N, TABLE, struck, 3, 1, 2))):
            with self.subTest(arguments):
                self.refused(number, revosti.list_pairs, *arguments)


class CheckTour(Operations):
    def test_length_and_open(self):
        marks = packed([1, 0, 1, 1, 0, 1])
        self.assertEqual(revosti.check_tour(N, TABLE, marks, [1, 2, 3, 4]), revosti.Tour(length=40, open=True))
        self.assertEqual(revosti.check_tour(N, TABLE, bytes(marks), (1, 3, 2, 4)), revosti.Tour(length=48, open=False))
        self.assertIs(revosti.check_tour(N, TABLE, marks, [4, 3, 2, 1]).open, True)

    def test_pending_edges_are_open(self):
        self.assertEqual(revosti.check_tour(N, TABLE, packed([1, 2, 1, 1, 2, 1]), [1, 3, 2, 4]), (48, True))
        self.assertEqual(revosti.check_tour(N, TABLE, packed([1, 2, 1, 1, 0, 1]), [1, 3, 2, 4]), (48, False))

    def test_longest(self):
        tour = revosti.check_tour(180, [2_000_000] * 16110, revosti.fresh_marks(180), range(1, 181))
        self.assertEqual(tour, (360_000_000, True))

    def test_refusals(self):
        marks = bytearray(2)
        for number, arguments in ((1, (3, [], marks, [])), (2, (N, [], b"", [])), (5, (N, [0] * 5 + [2_000_001], b"", [])),
                                  (6, (N, TABLE, packed([2] * 5 + [3]), [])), (6, (N, TABLE, bytes(3), [])), (17, (N, TABLE, marks, [])),
                                  (17, (N, TABLE, marks, [1, 2, 3, 3])), (17, (N, TABLE, marks, [0, 1, 2, 3])),
                                  (17, (N, TABLE, marks, [1, 2, 3, 4, 1]))):
            with self.subTest(arguments):
                self.refused(number, revosti.check_tour, *arguments)


class Refusals(Operations):
    def test_words(self):
        for number, words, call in (
                (1, "n is outside 4 to 180.", lambda: revosti.fresh_marks(3)),
                (3, "The rule is outside 1 to 5.", lambda: revosti.measure(N, 9, POINTS)),
                (6, "The packed set has not n(n − 1)/8 bytes, rounded up, or has a mark of 3 or an unused bit set; in a conversion also, "
                    "the byte set has not n(n − 1)/2 bytes or has a byte above 2.", lambda: revosti.confirm(N, packed([3] * 6))),
                (11, "A point is outside 1 to n, or a = b; for a saving also, both ends of an edge taken out are the same.",
                 lambda: revosti.exchange_saving(N, TABLE, 1, 3, 2, 2)),
                (12, "The edge is struck already.", lambda: revosti.list_pairs(N, TABLE, bytes(2), 1, 2, 3)),
                (20, "Something is pending: confirm or withdraw it first.",
                 lambda: revosti.mark_sheet(N, TABLE, packed([2] * 6), LINES)),
                (21, "Nothing is pending: there is nothing to confirm or withdraw.", lambda: revosti.confirm(N, bytearray(2)))):
            found = self.refused(number, call)
            self.assertEqual((found.words, str(found)), (words, f"Refused, number {number}: {words}"))

    def test_record(self):
        sheet = [[1, 1, 2, 0, 0, 3, 0, 0]]
        found = self.refused(14, revosti.mark_sheet, N, TABLE, revosti.fresh_marks(N), sheet, record=1)
        self.assertEqual(str(found), f"Refused, number 14, record 1: {found.words}")

    def test_goes_through_pickle(self):
        found = pickle.loads(pickle.dumps(revosti.Refusal(16, 7, 3)))
        self.assertEqual((found.number, found.record, found.lines, found.words), (16, 7, 3, revosti.meaning(16)))


def cut_to(argument, bits):
    """Arguments that so many bits would cut to this one, in its first number. Bytes are none."""
    if isinstance(argument, int):
        return [argument + 2**bits, argument - 2**bits]
    return [[first, *argument[1:]] for first in cut_to(argument[0], bits)] if bits > 8 else []


class Numbers(unittest.TestCase):
    """What fits no format reaches no function."""

    def test_numbers_that_do_not_fit(self):
        marks = revosti.fresh_marks(N)
        for call, *arguments in ((revosti.measure, (N, 32), (1, 32), (POINTS, 32)),
                                 (revosti.fresh_marks, (N, 32)), (revosti.pack_marks, (N, 32), (bytes([1] * 6), 8)),
                                 (revosti.unpack_marks, (N, 32), (marks, 8)),
                                 (revosti.mark_sheet, (N, 32), (TABLE, 32), (marks, 8), (LINES, 16)),
                                 (revosti.ask_sheet, (N, 32), (TABLE, 32), (marks, 8), (LINES, 16)),
                                 (revosti.confirm, (N, 32), (marks, 8)), (revosti.withdraw, (N, 32), (marks, 8)),
                                 (revosti.list_pairs, (N, 32), (TABLE, 32), (marks, 8), (1, 16), (2, 16), (3, 16)),
                                 (revosti.check_tour, (N, 32), (TABLE, 32), (marks, 8), ([1, 2, 3, 4], 16)),
                                 *((call, (N, 32), (TABLE, 32), *((point, 16) for point in points)) for call, points in SAVINGS)):
            plain = [argument for argument, _ in arguments]
            for at, (argument, bits) in enumerate(arguments):
                for wrong in cut_to(argument, bits):
                    with self.subTest((call, at, wrong)), self.assertRaises(OverflowError):
                        call(*plain[:at], wrong, *plain[at + 1:])
        self.assertEqual(marks, revosti.fresh_marks(N))

    def test_records_of_eight(self):
        with self.assertRaisesRegex(ValueError, "record 2 has 7 numbers, not 8"):
            revosti.mark_sheet(N, TABLE, revosti.fresh_marks(N), [LINES[0], LINES[1][:7]])

    def test_other_things(self):
        for call, arguments in ((revosti.mark_sheet, (N, TABLE, bytes(2), LINES)), (revosti.mark_sheet, (N, TABLE, [85, 5], LINES)),
                                (revosti.ask_sheet, (N, TABLE, bytes(2), LINES)), (revosti.confirm, (N, bytes(2))),
                                (revosti.withdraw, (N, bytes(2))), (revosti.check_tour, (N, TABLE, 2, [1, 2, 3, 4])),
                                (revosti.pack_marks, (N, 6)), (revosti.pack_marks, (N, [1] * 6)), (revosti.unpack_marks, (N, 2)),
                                (revosti.measure, (N, 1, [0.5] * 8))):
            with self.subTest(arguments), self.assertRaises(TypeError):
                call(*arguments)


class Place(unittest.TestCase):
    def test_edges_in_order(self):
        for n in (4, 5, 180):
            edges = list(combinations(range(1, n + 1), 2))
            self.assertEqual([revosti.place(n, a, b) for a, b in edges], list(range(len(edges))))
            self.assertEqual([revosti.place(n, b, a) for a, b in edges], list(range(len(edges))))
