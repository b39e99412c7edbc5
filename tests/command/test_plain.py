"""Lengths and standing pairs: the examples of 01, and a plain second way."""

import random
import unittest
from itertools import combinations

from tests.support.command import SQUARE_POINTS
from tests.support.plain import Board, edge, fits_tour, length_of


def tours_hold(k, n):
    """Whether some tour of n points has all edges of K. For points from 1 to n
    this is 01's tests 2 and 3."""
    from itertools import permutations
    for rest in permutations(range(2, n + 1)):
        order = (1, *rest)
        if k <= {edge(a, b) for a, b in zip(order, rest + (1,))}:
            return True
    return False


def lengths(p, q):
    """The lengths between two points under rules 1 to 5."""
    return tuple(length_of(rule, p, q) for rule in range(1, 6))


class Lengths(unittest.TestCase):
    def test_examples(self):
        table = {(1, 1): (1, 2, 1, 2, 1), (1, 2): (2, 3, 1, 3, 2), (2, 2): (3, 3, 1, 4, 2), (3, 4): (5, 5, 2, 7, 4),
                 (10**6, 10**6): (1414214, 1414214, 447214, 2000000, 1000000), (0, 0): (0,) * 5}
        for corner, wanted in table.items():
            self.assertEqual((lengths((0, 0), corner), lengths(corner, (0, 0))), (wanted, wanted))

    def test_att_at_its_bound(self):
        for differences, wanted in (((1, 3), 1), ((2, 3), 2), ((2, 6), 2), ((4, 5), 3)):  # S is 10, 13, 40, 41
            self.assertEqual(length_of(3, (0, 0), differences), wanted)

    def test_definition(self):
        r = random.Random(1)
        for _ in range(2000):
            x, y = r.randrange(10**r.randrange(1, 7)), r.randrange(10**r.randrange(1, 7))
            s, (euc, ceil, att, man, most) = x * x + y * y, lengths((x, 0), (0, y))
            self.assertTrue(s == euc == 0 or (2 * euc - 1) ** 2 <= 4 * s < (2 * euc + 1) ** 2)
            self.assertTrue(ceil**2 >= s and (ceil == 0 or (ceil - 1) ** 2 < s))
            self.assertTrue(10 * att**2 >= s and (att == 0 or 10 * (att - 1) ** 2 < s))
            self.assertEqual((man, most), (x + y, x if x > y else y))


class Standing(unittest.TestCase):
    def setUp(self):
        self.square = Board(1, SQUARE_POINTS, [])

    def test_compatible(self):
        self.assertFalse(self.square.compatible((1, 3), (2, 4)))
        self.assertTrue(self.square.compatible((1, 2), (3, 4)))

    def test_square(self):
        self.assertEqual(self.square.standing({(1, 2)}, 3), [(1, 4), (2, 4)])
        self.assertEqual(self.square.standing({(1, 3)}, 2), [])

    def test_struck_edges_do_not_stand(self):
        board = Board(1, SQUARE_POINTS, [(1, 3)])
        self.assertEqual(board.standing({(1, 2)}, 3), [(2, 4)])

    def test_point_of_an_earlier_split_moves(self):
        board, k = Board(1, [*SQUARE_POINTS, (0, 5)], []), {(1, 2), (1, 3), (3, 4)}
        self.assertIn((1, 4), board.standing({(1, 2)}, 3))
        self.assertFalse(any(board.moves(4, 3, 5, *e) for e in ((1, 2), (1, 3))))
        self.assertTrue(board.moves(1, 2, 3, 4, 5))
        self.assertEqual(board.standing(k, 4), [])

    def test_ties_stand(self):
        board = Board(1, [*SQUARE_POINTS, (0, 5)], [])
        self.assertEqual(board.standing({(2, 3), (1, 5), (2, 5)}, 3), [(2, 4)])  # 5, to between 3 and 4: 26 against 26

    def test_one_edge_asks_the_split_point_alone(self):
        r, seen = random.Random(4), set()
        for _ in range(1500):
            most = r.choice((3, 10, 1000))
            board = Board(1, [(r.randint(0, most), r.randint(0, most)) for _ in range(6)], [])
            a, b, c = r.sample(range(1, 7), 3)
            x, y = r.sample([p for p in range(1, 7) if p != c], 2)
            moved = board.moves(c, x, y, a, b)
            self.assertEqual(board.movable({edge(a, b), edge(c, x), edge(c, y)}), moved)
            seen.add((moved, len({a, b} & {x, y})))
        self.assertTrue(seen >= {(True, 0), (True, 1), (False, 0), (False, 1), (False, 2)})

    def test_tours_hold_what_fits(self):
        r, every = random.Random(2), list(combinations(range(1, 7), 2))
        for _ in range(150):
            k = set(r.sample(every, r.randrange(1, 7)))
            self.assertEqual(fits_tour(k, 6), tours_hold(k, 6), k)

    def test_whole_tours_fit_and_two_triangles_do_not(self):
        self.assertTrue(fits_tour({(1, 2), (2, 3), (3, 4), (1, 4)}, 4))
        self.assertFalse(fits_tour({(1, 2), (2, 3), (1, 3), (4, 5), (5, 6), (4, 6)}, 6))
