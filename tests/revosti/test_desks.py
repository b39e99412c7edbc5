"""Eight desks over the library: the life of a desk on the square, refusals, each desk against its sheet marked alone,
served within eight, the state's numbers, and states of any bytes."""

import random
import unittest

from tests.support import ROOT
from tests.support.packing import packed
from tests.support.square import LINES, N, TABLE

import revosti
from revosti import DESKS, DESKS_BYTES, Desk, Turn

RULES = (ROOT / "docs/RULES.md").read_text(encoding="utf-8")
WRONG = [[1, 1, 2, 0, 0, 3, 0, 0]]  # refused by 14
SHEETS = [LINES, LINES[::-1], WRONG, LINES[:1], [[1, 1, 3, 0, 0, 2, 0, 1]], [[1, 2, 4, 0, 0, 1, 0, 2]], [[1, 1, 3, 0, 0, 2, 0, 2]] * 2,
          [[1, 1, 3, 0, 0, 2, 0, 3], [0] * 8, [1, 1, 5, 0, 0, 2, 0, 0]], [[2] + [0] * 7],
          [[1, 1, 3, 0, 0, 2, 0, 3], [0] * 8, [1, 4, 2, 0, 0, 1, 0, 0]]]


def alone(marks, sheet):
    """The slip of a sheet marked at once, and the marks that it leaves."""
    marks = bytearray(marks)
    return revosti.new_slip(N, TABLE, marks, sheet), bytes(marks)


class Hall:
    """Eight desks on the square, each with its marks and its sheet."""

    def __init__(self):
        self.desks = revosti.open_desks()
        self.marks = {desk: revosti.fresh_marks(N) for desk in range(1, DESKS + 1)}
        self.sheets = {}

    def hand_in(self, desk, sheet):
        revosti.hand_in(self.desks, desk, N, TABLE, self.marks[desk], sheet)
        self.sheets[desk] = sheet

    def turn(self):
        desk = revosti.next_desk(self.desks)
        return desk and revosti.turn(self.desks, N, TABLE, self.marks[desk], self.sheets[desk])

    def held(self):
        """What the state holds of each desk."""
        return [revosti.desk_of(self.desks, desk) for desk in range(1, DESKS + 1)]


def refusal(call, *arguments):
    """The number that a call is refused by."""
    try:
        call(*arguments)
    except revosti.Refusal as found:
        return found.number, found.record
    return 0, 0


class Square(unittest.TestCase):
    def test_the_example_of_the_rules(self):
        hall = Hall()
        hall.hand_in(1, LINES)
        hall.hand_in(3, WRONG)
        self.assertEqual(revosti.next_desk(hall.desks), 1)
        self.assertEqual([hall.turn() for _ in range(4)], [Turn(1, True, 0, 0, 1), Turn(3, False, 14, 1, 0), Turn(1, False, 0, 0, 2), None])
        self.assertEqual((bytes(hall.marks[1]), bytes(hall.marks[3])), (packed([1, 0, 1, 1, 0, 1]), packed([1] * 6)))
        self.assertEqual(revosti.last_served(hall.desks), 1)

    def test_answers_in_the_rules(self):
        hall = Hall()
        hall.hand_in(1, LINES)
        first, second = hall.turn(), hall.turn()
        told = [turn.slip + (turn.desk << 48) + (turn.line_left << 56) for turn in (first, second)]
        self.assertIn(f"| then, by turns: {told[0]:,}; {told[1]:,}; 0 |\n", RULES)
        self.assertIsNone(hall.turn())

    def test_what_the_state_holds(self):
        hall = Hall()
        self.assertEqual(hall.held(), [Desk(0, 0, 0)] * 8)
        hall.hand_in(2, LINES)
        self.assertEqual(hall.held()[1], Desk(1, 0, 0))
        hall.turn()
        self.assertEqual((hall.held()[1], hall.held()[1].line_left, revosti.last_served(hall.desks)), (Desk(2, 1, 1), True, 2))
        hall.turn()
        self.assertEqual((hall.held(), len(hall.desks)), ([Desk(0, 0, 0)] * 8, DESKS_BYTES))

    def test_a_slip(self):
        hall = Hall()
        hall.hand_in(4, SHEETS[4])
        slip = hall.turn().slip
        self.assertEqual(revosti.examiner_view(slip), bytes((9, 0, 1, 0, 1, 0)))


class Refused(unittest.TestCase):
    def test_handing_in(self):
        hall = Hall()
        marks, pending = hall.marks[1], packed([1, 2, 1, 1, 1, 1])
        for desk, n, set_of, sheet, number in ((0, 3, b"", [], 28), (9, N, marks, LINES, 28), (2**32 - 1, N, marks, LINES, 28),
                                               (1, 3, b"", [], 1), (1, 5, b"", [], 2), (1, N, b"", [], 6), (1, N, pending, [], 20),
                                               (1, N, marks, [], 7), (1, N, marks, LINES, 0), (1, 3, b"", [], 29)):
            before = bytes(hall.desks)
            self.assertEqual(refusal(revosti.hand_in, hall.desks, desk, n, TABLE, set_of, sheet), (number, 0))
            self.assertEqual(bytes(hall.desks) == before, number != 0)

    def test_short_states(self):
        for size in (0, 1, 49):
            desks = bytearray(size)
            for call, words in ((revosti.hand_in, (0, 3, TABLE, b"", [])), (revosti.next_desk, ()), (revosti.desk_of, (9,)),
                                (revosti.turn, (3, TABLE, bytearray(), [])), (revosti.last_served, ())):
                self.assertEqual(refusal(call, desks, *words), (22, 0))
        self.assertEqual(refusal(revosti.desk_of, revosti.open_desks(), 9), (28, 0))

    def test_tests_at_a_turn(self):
        pending = packed([1, 0, 1, 1, 2, 1])
        for n, set_of, sheet, number in ((3, None, LINES, 1), (5, None, LINES, 2), (N, b"", LINES, 6), (N, pending, LINES, 20),
                                         (N, None, [], 7), (N, None, LINES[:1], 8)):
            hall = Hall()
            hall.hand_in(5, LINES)
            hall.turn()
            marks = bytearray(hall.marks[5] if set_of is None else set_of)
            before = bytes(marks)
            found = revosti.turn(hall.desks, n, TABLE, marks, sheet)
            self.assertEqual(found, Turn(5, False, number, 1 if number == 8 else 0, 1))
            self.assertEqual((bytes(marks), hall.held()[4]), (before, Desk(0, 0, 0)))

    def test_numbers_and_buffers(self):
        desks = revosti.open_desks()
        for desk in (-1, 2**32):
            with self.assertRaisesRegex(OverflowError, "^desk: "):
                revosti.hand_in(desks, desk, N, TABLE, revosti.fresh_marks(N), LINES)
        for call, words in ((revosti.next_desk, ()), (revosti.turn, (N, TABLE, revosti.fresh_marks(N), LINES))):
            with self.assertRaisesRegex(TypeError, "^desks: "):
                call("desks", *words)


class Halls(unittest.TestCase):
    """Random halls: each desk against its sheet marked alone, the order of desks, and who waits how long."""

    def test_marked_alone(self):
        r, ends = random.Random(14), set()
        for _ in range(60):
            hall, start, waited = Hall(), {}, {}
            for _ in range(80):
                if r.random() < 0.4:
                    desk, sheet = r.randint(1, DESKS), r.choice(SHEETS)
                    busy = hall.held()[desk - 1].line_left
                    before = bytes(hall.marks[desk])
                    self.assertEqual(refusal(hall.hand_in, desk, sheet), (29 if busy else 0, 0))
                    if not busy:
                        start[desk], waited[desk] = before, 0
                    continue
                others = {desk: bytes(marks) for desk, marks in hall.marks.items()}
                last, lines = revosti.last_served(hall.desks), [desk.line_left for desk in hall.held()]
                found = hall.turn()
                self.assertEqual(found is None, not any(lines))
                if found is None:
                    continue
                ahead = [d for k in range(DESKS) for d in [(last + k) % DESKS + 1] if lines[d - 1]]
                self.assertEqual(found.desk, ahead[0])
                self.assertEqual({d for d, marks in hall.marks.items() if marks != others[d]} | {found.desk}, {found.desk})
                waited = {desk: turns + 1 for desk, turns in waited.items() if desk != found.desk}
                self.assertLessEqual(max(waited.values(), default=0), 7)
                if found.line_left:
                    waited[found.desk] = 0
                else:
                    self.assertEqual((found.slip, bytes(hall.marks[found.desk])), alone(start[found.desk], hall.sheets[found.desk]))
                    ends.add(found.refusal)
        self.assertEqual(ends, {0, 8, 9, 10, 11, 12, 14})

    def test_any_bytes_are_a_state(self):
        r, served = random.Random(15), set()
        for _ in range(2000):
            small = bytes(r.choice((0, 0, 0, 1, 2)) for _ in range(60))
            desks, marks = bytearray(r.choice((r.randbytes(60), small))), revosti.fresh_marks(N)
            for _ in range(5):
                found = revosti.turn(desks, N, TABLE, marks, r.choice(SHEETS))
                served.add(found and found.desk)
            self.assertEqual([revosti.mark_of(N, marks, *side) for side in ((1, 2), (2, 3), (3, 4), (1, 4))], [revosti.OPEN] * 4)
        self.assertEqual(served, {None, *range(1, DESKS + 1)})
