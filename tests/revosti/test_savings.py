"""Savings over the library: 01's examples, a plain reading of each formula, the rules that they are the margin of, and every refusal."""

import random
import unittest
from array import array
from itertools import combinations, product

from tests.support.plain import Board, degree, edge, ends, fits_tour
from tests.support.square import N, TABLE

import revosti
from revosti.library import library
from revosti.operations import lend

MOST = 2_000_000
P, Q, R, S, X, Y, Z, W = range(1, 9)


def lengths(n, table):
    """l, from a table by the order of its edges."""
    known = dict(zip(combinations(range(1, n + 1), 2), table))
    return lambda a, b: known.get((min(a, b), max(a, b)), 0)


def exchange(l, p, q, x, y):
    """Their sum less the larger of the two exchanges."""
    return l(p, q) + l(x, y) - max(l(p, x) + l(q, y), l(p, y) + l(q, x))


def move(l, c, x, y, u, v):
    """Old less new."""
    return (l(u, v) + l(x, c) + l(y, c)) - (l(x, y) + l(u, c) + l(v, c))


def labelled(l, p, q, r, s, x, y, z, w):
    """The smaller of the two savings of one labelling."""
    return min(l(p, q) + l(r, x) + l(s, w) - l(r, s) - l(p, x) - l(q, w), l(p, q) + l(r, y) + l(s, z) - l(r, s) - l(p, z) - l(q, y))


def crossing(l, p, q, r, s, x, y, z, w):
    """The best of the four labellings."""
    return max(labelled(l, p, q, r, s, x, y, z, w), labelled(l, p, q, r, s, y, x, z, w), labelled(l, p, q, r, s, x, y, w, z),
               labelled(l, p, q, r, s, y, x, w, z))


# Each function with its plain reading, the number of its points, and the edges taken out, as places among its points.
RULES = (
    (revosti.exchange_saving, exchange, 4, ((0, 1), (2, 3))),
    (revosti.move_saving, move, 5, ((1, 0), (2, 0), (3, 4))),
    (revosti.crossing_saving, crossing, 8, ((0, 1), (2, 4), (3, 7), (2, 5), (3, 6))),
)


def no_edge(n, points, out):
    """Whether an edge taken out is none."""
    return any(points[i] == points[j] or not (1 <= points[i] <= n and 1 <= points[j] <= n) for i, j in out)


def answered(call, *arguments):
    """The saving of a call, or its refusal number as a text."""
    try:
        return call(*arguments)
    except revosti.Refusal as found:
        assert (found.record, found.lines) == (0, 0)
        return f"refused {found.number}"


def eight(centres):
    """01's crossing: its table of eight points, the centres so far apart."""
    tens, nines = ((P, Q), (R, X), (R, Y), (S, Z), (S, W)), ((P, X), (Q, W), (P, Z), (Q, Y))
    twenties = ((P, Y), (Q, X), (P, W), (Q, Z))
    known = {**dict.fromkeys(tens, 10), **dict.fromkeys(nines, 9), **dict.fromkeys(twenties, 20), (R, S): centres}
    return [known.get(edge, 1) for edge in combinations(range(1, 9), 2)]


class Examples(unittest.TestCase):
    def test_exchange(self):
        for points, saving in (((1, 3, 2, 4), 8), ((3, 1, 2, 4), 8), ((2, 4, 3, 1), 8), ((1, 2, 3, 4), -8), ((1, 4, 2, 3), -8),
                               ((1, 2, 2, 3), 0), ((1, 3, 1, 3), 0), ((1, 3, 3, 1), 0)):
            self.assertEqual(revosti.exchange_saving(N, TABLE, *points), saving, points)

    def test_move(self):
        for points, saving in (((3, 1, 4, 1, 2), 0), ((3, 2, 4, 1, 2), 30 - 38), ((3, 4, 2, 2, 1), 30 - 38), ((2, 1, 3, 1, 3), 0),
                               ((2, 4, 3, 1, 4), 34 - 34), ((1, 3, 3, 2, 4), 42 - 20), ((1, 2, 4, 2, 3), 30 - 38),
                               ((1, 3, 2, 3, 2), 0), ((4, 2, 1, 2, 3), 0)):
            self.assertEqual(revosti.move_saving(N, TABLE, *points), saving, points)

    def test_crossing(self):
        for centres, saving in ((9, 3), (11, 1), (12, 0), (13, -1), (14, -2), (0, 12), (MOST, 12 - MOST)):
            for points in ((P, Q, R, S, X, Y, Z, W), (P, Q, R, S, Y, X, Z, W), (P, Q, R, S, X, Y, W, Z), (P, Q, R, S, Y, X, W, Z),
                           (Q, P, S, R, W, Z, X, Y)):
                self.assertEqual(revosti.crossing_saving(8, eight(centres), *points), saving, (centres, points))

    def test_only_one_of_the_moves(self):
        table = eight(9)
        table[revosti.place(8, Q, Y)] = 13
        self.assertEqual(revosti.crossing_saving(8, table, P, Q, R, S, X, Y, Z, W), -1)
        table[revosti.place(8, P, X)], table[revosti.place(8, Q, Y)] = 14, 9
        self.assertEqual(revosti.crossing_saving(8, table, P, Q, R, S, X, Y, Z, W), -2)

    def test_largest_and_least(self):
        for (call, _, count, out), edges in zip(RULES, (2, 3, 3)):
            points = range(1, count + 1)
            taken = [tuple(sorted((points[i], points[j]))) for i, j in out]
            for high, low, saving in ((MOST, 0, edges * MOST), (0, MOST, -edges * MOST)):
                table = [high if edge in taken else low for edge in combinations(points, 2)]
                self.assertEqual(call(count, table, *points), saving)


class Formulas(unittest.TestCase):
    def test_against_a_plain_reading(self):
        r, signs = random.Random(1), {call: set() for call, *_ in RULES}
        for n, most in product((4, 5, 9, 180), (3, MOST)):
            table = [r.randint(0, most) for _ in range(n * (n - 1) // 2)]
            l = lengths(n, table)
            for call, plain, count, out in RULES:
                for _ in range(40 if n == 180 else 400):
                    points = [r.randint(1, n) for _ in range(count)]
                    wanted = "refused 11" if no_edge(n, points, out) else plain(l, *points)
                    self.assertEqual(answered(call, n, table, *points), wanted, (n, points))
                    signs[call].add("refused" if wanted == "refused 11" else (wanted > 0) - (wanted < 0))
        self.assertTrue(all(seen == {-1, 0, 1, "refused"} for seen in signs.values()), signs)

    def test_ends_of_the_table(self):
        for call, plain, count, out in RULES:
            table = [k + 1 for k in range(16110)]
            points = [180, 179, 178, 177, 1, 2, 3, 4][:count]
            self.assertEqual(call(180, table, *points), plain(lengths(180, table), *points))
            self.assertFalse(no_edge(180, points, out))

    def test_answers(self):
        for name, points, saving in (("exchange", (1, 3, 2, 4), 8), ("exchange", (1, 2, 3, 4), -8), ("move", (3, 1, 4, 1, 2), 0),
                                     ("move", (3, 2, 4, 1, 2), -8), ("crossing", (1, 3, 2, 4, 1, 3, 1, 3), 20),
                                     ("crossing", (1, 2, 3, 4, 1, 2, 2, 1), 20)):
            lent = array("I", TABLE)
            self.assertEqual(getattr(library(), f"revosti_{name}_saving")(N, *lend(lent), *points), 65536 * saving, (name, points))
            self.assertEqual(lent, TABLE)


class Margins(unittest.TestCase):
    """A rule shuts a case out exactly when its saving is above 0."""

    def boards(self, n):
        """Random boards with their tables; few different coordinates make ties."""
        r = random.Random(n)
        for most in (3, 3, 8, 8, 100, 1000):
            points = [(r.randint(0, most), r.randint(0, most)) for _ in range(n)]
            yield Board(1, points, []), revosti.measure(n, 1, points)

    def test_compatible(self):
        seen = set()
        for board, table in self.boards(6):
            for e, f in product(combinations(range(1, 7), 2), repeat=2):
                saving = revosti.exchange_saving(6, table, *e, *f)
                self.assertEqual(saving <= 0, board.compatible(e, f))
                seen.add((saving > 0) - (saving < 0))
        self.assertEqual(seen, {-1, 0, 1})

    def test_condition_5(self):
        seen = set()
        for board, table in self.boards(6):
            for e, c in product(combinations(range(1, 7), 2), range(1, 7)):
                if c in e:
                    continue
                for x, y in combinations([k for k in range(1, 7) if k != c], 2):
                    saving = revosti.move_saving(6, table, c, x, y, *e)
                    self.assertEqual(saving > 0, board.movable({e, edge(c, x), edge(c, y)}))
                    seen.add((saving > 0) - (saving < 0))
        self.assertEqual(seen, {-1, 0, 1})

    def test_condition_5_of_larger_sets(self):
        r, seen = random.Random(7), set()
        for board, table in self.boards(6):
            for _ in range(400):
                k = set(r.sample(list(combinations(range(1, 7), 2)), r.randint(3, 6)))
                settled = [w for w in range(1, 7) if degree(k, w) == 2]
                if not (fits_tour(k, 6) and settled):
                    continue
                saving = max(revosti.move_saving(6, table, w, *ends(k, w), *e) for w in settled for e in k if w not in e)
                self.assertEqual(saving > 0, board.movable(k))
                seen.add((saving > 0) - (saving < 0))
        self.assertEqual(seen, {-1, 0, 1})


class Refusals(unittest.TestCase):
    def test_order(self):
        large = [MOST + 1] * 6
        for call, _, count, _ in RULES:
            wrong, name = [0] * count, call.__name__
            for n in (0, 3, 181, 2**32 - 1):
                self.assertEqual(answered(call, n, large[1:], *wrong), "refused 1", name)
            for n, table in ((N, []), (N, large[1:]), (N, [*large, 0]), (5, large), (180, large)):
                self.assertEqual(answered(call, n, table, *wrong), "refused 2", name)
            for at in range(6):
                for length in (MOST + 1, 2**32 - 1):
                    self.assertEqual(answered(call, N, [*TABLE[:at], length, *TABLE[at + 1:]], *wrong), "refused 5", name)
            self.assertEqual(answered(call, N, TABLE, *wrong), "refused 11", name)

    def test_broken_tables(self):
        good = {4: (1, 3, 2, 4), 5: (3, 1, 4, 1, 2), 8: (1, 3, 2, 4, 1, 3, 1, 3)}
        for call, _, count, _ in RULES:
            for size, number in ((24, 0), (0, 2), (23, 2), (25, 2), (20, 2), (28, 2)):
                data = bytearray(size)
                function = getattr(library(), f"revosti_{call.__name__}")
                self.assertEqual((function(N, *lend(data), *good[count]), data), (number, bytearray(size)))

    def test_every_point_outside(self):
        table = [1] * 28
        for call, _, count, _ in RULES:
            points = list(range(1, count + 1))
            self.assertEqual(answered(call, 8, table, *points), 0)
            for at, wrong in product(range(count), (0, 9, 257, 65535)):
                self.assertEqual(answered(call, 8, table, *points[:at], wrong, *points[at + 1:]), "refused 11", (call, at, wrong))

    def test_two_points_the_same(self):
        for call, _, count, out in RULES:
            points = list(range(1, count + 1))
            for i, j in combinations(range(count), 2):
                same = [points[i] if k == j else point for k, point in enumerate(points)]
                refused = (i, j) in out or (j, i) in out
                self.assertEqual(answered(call, 8, [1] * 28, *same) == "refused 11", refused, (call, i, j))

    def test_all_points_of_a_square(self):
        l = lengths(N, TABLE)
        for call, plain, count, out in RULES[:2]:
            for points in product(range(0, N + 2), repeat=count):
                wanted = "refused 11" if no_edge(N, points, out) else plain(l, *points)
                self.assertEqual(answered(call, N, TABLE, *points), wanted, points)
