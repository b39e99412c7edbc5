"""Marking and listing over two tables: over the same table twice, refusals and their order, a plain reading of the rules, shortest tours of
tables between the two."""

import random
import re
import unittest
from array import array
from collections import Counter
from itertools import combinations, pairwise, permutations

from tests.support import ROOT
from tests.support.packing import packed
from tests.support.plain import Board, edge
from tests.support.square import LINES, N, TABLE

import revosti
from revosti.library import library
from revosti.operations import HALF, WORD, lend, records
from revosti_command.read import pack

# The square's limits where its side is 10 to 13, and 10 to 14: diagonals are 14 to 18, and 14 to 20.
NARROW, WIDE = [13, 18, 13, 13, 18, 13], [14, 20, 14, 14, 20, 14]
PAGE = (ROOT / "docs/FORMATS.md").read_text(encoding="utf-8")
RULES = (ROOT / "docs/RULES.md").read_text(encoding="utf-8")


def verdict(call, *arguments):
    """Number, record and lines accepted of a sheet handed in."""
    try:
        return 0, 0, call(*arguments)
    except revosti.Refusal as found:
        return found.number, found.record, found.lines


def listed(call, *arguments):
    """The pairs that a call lists, or its refusal number."""
    try:
        return call(*arguments)
    except revosti.Refusal as found:
        return found.number


def edges(n):
    """All edges, in edge order."""
    return list(combinations(range(1, n + 1), 2))


def limits(r, n, width, most=50):
    """Two tables of n points, no low length above its high one, so far apart at most."""
    low = [r.randint(0, most) for _ in edges(n)]
    return low, [length + r.randint(0, width) for length in low]


def within(r, low, high):
    """A table between the two, often at their ends."""
    return [r.choice((least, most, r.randint(least, most))) for least, most in zip(low, high)]


def sheet_of(text):
    """n, table and sheet of a text."""
    parts = pack(text).parts
    return parts.n, revosti.measure(parts.n, parts.rule, parts.points), parts.records


class Agreement(unittest.TestCase):
    """Over the same table twice each operation is that of one table."""

    def test_sheets(self):
        six = re.search(r"^```\n(# six points.*?)^```$", PAGE, re.S | re.M)[1]
        for n, table, sheet in (sheet_of((ROOT / "tests/command/nine.txt").read_text()), sheet_of(six), (N, TABLE, LINES)):
            for last in range(1, len(sheet) + 1):  # most of them stop at an index above the record count
                one, two = revosti.fresh_marks(n), revosti.fresh_marks(n)
                found = verdict(revosti.mark_between, n, table, table, two, sheet[:last])
                self.assertEqual((found, two), (verdict(revosti.mark_sheet, n, table, one, sheet[:last]), one))
            self.assertEqual(found[0], 0)

    def test_random_lines_and_lists(self):
        r, seen = random.Random(1), set()
        for _ in range(2000):
            n = r.randint(4, 7)
            table = limits(r, n, 0)[0]
            marks = packed([r.choice((0, 1, 1, 1)) for _ in edges(n)])
            a, b, c = (r.randint(0, n + 1) if r.random() < 0.05 else r.randint(1, n) for _ in range(3))
            found = listed(revosti.list_between, n, table, table, marks, a, b, c)
            self.assertEqual(found, listed(revosti.list_pairs, n, table, marks, a, b, c))
            one, two, sheet = bytearray(marks), bytearray(marks), [[1, a, b, 0, 0, c, 0, 0]]
            told = verdict(revosti.mark_between, n, table, table, two, sheet)
            self.assertEqual((told, two), (verdict(revosti.mark_sheet, n, table, one, sheet), one))
            seen.add(told[0])
        self.assertEqual(seen, {0, 11, 12, 14})


class Square(unittest.TestCase):
    """The square whose side is 10 to 13, and 10 to 14."""

    def marked(self, low, high, sheet=LINES):
        """The verdict, and the marks left."""
        marks = revosti.fresh_marks(N)
        return verdict(revosti.mark_between, N, low, high, marks, sheet), marks

    def pairs(self, low, high, *points):
        """The standing pairs under fresh marks."""
        return revosti.list_between(N, low, high, revosti.fresh_marks(N), *points)

    def test_strikes_that_hold_over_both(self):
        self.assertEqual(self.marked(TABLE, NARROW), ((0, 0, 2), packed([1, 0, 1, 1, 0, 1])))
        self.assertEqual((self.pairs(TABLE, NARROW, 1, 3, 2), self.pairs(TABLE, NARROW, 2, 4, 1)), ([], []))

    def test_pairs_that_stand_by_the_limits_alone(self):
        for table in (TABLE, WIDE):
            self.assertEqual(self.marked(table, table), ((0, 0, 2), packed([1, 0, 1, 1, 0, 1])))
            self.assertEqual(self.pairs(table, table, 1, 3, 2), [])
        self.assertEqual(self.pairs(TABLE, WIDE, 1, 3, 2), [(1, 4), (3, 4)])
        self.assertEqual(self.marked(TABLE, WIDE), ((14, 1, 0), revosti.fresh_marks(N)))

    def test_which_length_counts(self):
        both = [(1, 4), (3, 4)]  # they have 2-4, which stands beside 1-3 where the low diagonals are no longer than the high sides
        for low, high, pairs in (([14] * 6, WIDE, both), ([0, 14, 0, 0, 14, 0], WIDE, both), (TABLE, [14] * 6, both),
                                 (TABLE, [14, 2_000_000, 14, 14, 2_000_000, 14], both), (TABLE, NARROW, []),
                                 (TABLE, [13, 20, 13, 13, 20, 13], []), ([10, 15, 10, 10, 14, 10], WIDE, []),
                                 ([10, 14, 10, 10, 15, 10], WIDE, [])):
            self.assertEqual(self.pairs(low, high, 1, 3, 2), pairs, (low, high))

    def test_a_sheet_that_stops_keeps_its_lines(self):
        for last, number in (([1, 2, 4, 0, 0, 1, 0, 1], 9), ([1, 2, 4, 0, 0, 1, 0, 3], 8)):
            self.assertEqual(self.marked(TABLE, NARROW, [LINES[0], last]), ((number, 2, 2), packed([1, 0, 1, 1, 0, 1])))
        self.assertEqual(self.marked(TABLE, NARROW, [LINES[0], [1, 1, 2, 0, 0, 3, 0, 0]]), ((14, 2, 1), packed([1, 0, 1, 1, 1, 1])))

    def test_later_lines_see_earlier_strikes(self):
        marks = packed([1, 0, 1, 1, 1, 1])
        self.assertEqual(revosti.list_between(N, TABLE, WIDE, marks, 1, 2, 3), [(2, 4)])
        self.assertEqual(revosti.list_between(N, TABLE, WIDE, packed([1, 2, 1, 1, 1, 1]), 1, 2, 3), [(1, 4), (2, 4)])

    def test_slips(self):
        for high, slip, left in ((NARROW, 2 << 24, [1, 0, 1, 1, 0, 1]), (WIDE, 14 + 256, [1] * 6), ([9] * 6, 25, [1] * 6)):
            marks = revosti.fresh_marks(N)
            self.assertEqual((revosti.new_slip_between(N, TABLE, high, marks, LINES), marks), (slip, packed(left)))

    def test_rules_page(self):
        section = " ".join(RULES.partition("\n## Lengths known within limits\n")[2].partition("\n## ")[0].split())
        out, narrow, wide = TABLE[1] + TABLE[4], NARROW[0] + NARROW[3], WIDE[0] + WIDE[3]
        savings = [(out, narrow), (out, wide), (out, TABLE[0] + TABLE[3]), (WIDE[1] + WIDE[4], wide)]
        found = re.findall(r"(\d+) − (\d+) = (\d+)", section)
        self.assertEqual([tuple(map(int, row)) for row in found], [(taken, put, taken - put) for taken, put in savings])
        self.assertEqual([revosti.exchange_saving(N, table, 1, 3, 2, 4) for table in (TABLE, WIDE)], [8, 12])
        pairs = self.pairs(TABLE, WIDE, 1, 3, 2)
        self.assertIn(f"so {' and '.join(f'({x},{y})' for x, y in pairs)} stand at 2 under {{1-3}}", section)

    def test_answers_on_the_rules_page(self):
        found = [revosti.new_slip_between(N, low, high, revosti.fresh_marks(N), LINES)
                 for low, high in ((TABLE, NARROW), (TABLE, WIDE), (NARROW, TABLE))]
        self.assertIn("| up to the side 13: {:,}; up to 14: {}; from 13 up to 10: {} |\n".format(*found), RULES)
        found = [65536 * len(self.pairs(TABLE, high, *points))
                 for high, points in ((TABLE, (1, 2, 3)), (TABLE, (1, 3, 2)), (WIDE, (1, 3, 2)))]
        self.assertIn("| 1-2 at 3: {:,}; 1-3 at 2: {}, and up to the side 14: {:,} |\n".format(*found), RULES)


class Crossing(unittest.TestCase):
    """The sheet of six points in FORMATS.md, whose crossing saves 14: it takes out 1-4, 2-3 and 5-6 and puts in 2-6, 1-5 and 3-4."""

    def setUp(self):
        text = re.search(r"^```\n(# six points.*?)^```$", PAGE, re.S | re.M)[1]
        self.n, self.table, self.sheet = sheet_of(text)

    def marked(self, ends, lower=0, higher=0):
        """The verdict where this edge may be so much shorter or longer."""
        low, high, place = list(self.table), list(self.table), revosti.place(self.n, *ends)
        low[place] -= lower
        high[place] += higher
        return verdict(revosti.mark_between, self.n, low, high, revosti.fresh_marks(self.n), self.sheet)

    def test_what_is_put_in_counts_high(self):
        self.assertEqual((self.marked((1, 5), higher=13), self.marked((1, 5), higher=14)), ((0, 0, 1), (16, 4, 0)))
        self.assertEqual(self.marked((1, 5), lower=14), (0, 0, 1))

    def test_what_is_taken_out_counts_low(self):
        for ends in ((1, 4), (5, 6)):
            self.assertEqual((self.marked(ends, lower=13), self.marked(ends, lower=14)), ((0, 0, 1), (16, 4, 0)))
            self.assertEqual(self.marked(ends, higher=1000), (0, 0, 1))


class Refusals(unittest.TestCase):
    """Each refusal, and the first of two in the order of the tests. A refused call changes nothing that it is lent."""

    LONG, ABOVE = [*TABLE, 10], [2_000_001, *TABLE[1:]]
    # What is at fault in a call, by number, in the order of the tests.
    TABLES = [(1, {"n": 3}), (1, {"n": 181}), (2, {"low": TABLE[:5]}), (2, {"low": LONG}), (2, {"high": TABLE[:5]}), (2, {"high": LONG}),
              (5, {"low": ABOVE}), (5, {"high": ABOVE}), (25, {"low": [11, *TABLE[1:]]}), (25, {"high": [*TABLE[:5], 9]})]
    SETS = [(6, {"marks": b"\x55"}), (6, {"marks": b"\x55\x05\0"}), (6, {"marks": packed([1, 1, 3, 1, 1, 1])}), (6, {"marks": b"\x55\x15"})]
    MARK = [*TABLES, *SETS, (20, {"marks": packed([0, 1, 1, 1, 1, 2])}), (7, {"sheet": []}), (7, {"sheet": [LINES[1]] * 4001}),
            (12, {"marks": packed([1, 0, 1, 1, 1, 1])})]
    LIST = [*TABLES, *SETS, (11, {"a": 0}), (11, {"b": 5}), (11, {"c": 5}), (11, {"a": 2}), (12, {"marks": packed([0, 1, 1, 1, 1, 1])}),
            (18, {"places": 3}), (18, {"places": 0})]

    def lent(self, changes):
        """The bytes of a call that is accepted but for these changes."""
        good = {"n": N, "low": TABLE, "high": TABLE, "marks": packed([1] * 6), "sheet": LINES, "a": 1, "b": 2, "c": 3, "places": 8}
        call = good | changes
        tables = [*lend(array(WORD, call["low"])), *lend(array(WORD, call["high"]))]
        return call, tables, bytearray(call["marks"])

    def mark(self, changes):
        """The answer of marking, whether nothing was changed."""
        call, tables, marks = self.lent(changes)
        answer = library().revosti_mark_between(call["n"], *tables, *lend(marks), *lend(records(call["sheet"])))
        return answer & 0xff, marks == call["marks"]

    def list(self, changes):
        """The same of listing."""
        call, tables, marks = self.lent(changes)
        found = array(HALF, [9] * call["places"])
        answer = library().revosti_list_between(call["n"], *tables, *lend(marks), call["a"], call["b"], call["c"], *lend(found))
        return answer & 0xff, marks == call["marks"] and found.tolist() == [9] * call["places"]

    def test_accepted(self):
        self.assertEqual((self.mark({}), self.list({})), ((0, False), (0, False)))

    def test_one_fault(self):
        for call, faults in ((self.mark, self.MARK), (self.list, self.LIST)):
            for number, changes in faults:
                self.assertEqual(call(changes), (number, True), changes)

    def test_the_first_of_two(self):
        count = 0
        for call, faults in ((self.mark, self.MARK), (self.list, self.LIST)):
            for (number, first), (_, second) in combinations(faults, 2):
                if not first.keys() & second.keys():
                    self.assertEqual(call(first | second), (number, True), (first, second))
                    count += 1
        self.assertGreater(count, 250)

    def test_the_order(self):
        for faults, order in ((self.MARK, [1, 2, 5, 25, 6, 20, 7, 12]), (self.LIST, [1, 2, 5, 25, 6, 11, 12, 18])):
            numbers = [number for number, _ in faults]
            self.assertEqual([numbers[0], *(two for one, two in pairwise(numbers) if one != two)], order)

    def test_no_whole_entries(self):
        table, odd = array(WORD, TABLE), bytearray(23)
        for low, high in ((odd, table), (table, odd), (odd, odd), (bytearray(25), table), (table, bytearray(25))):
            marks, found = revosti.fresh_marks(N), bytearray(16)
            tables = [*lend(low), *lend(high)]
            self.assertEqual(library().revosti_mark_between(N, *tables, *lend(marks), *lend(records(LINES))), 2)
            self.assertEqual(library().revosti_list_between(N, *tables, *lend(marks), 1, 2, 3, *lend(found)), 2)
            self.assertEqual((marks, found), (revosti.fresh_marks(N), bytearray(16)))

    def test_equal_lengths_and_the_longest_pass(self):
        longest = [2_000_000] * 6
        for low, high in ((TABLE, TABLE), ([0] * 6, longest), (longest, longest)):
            self.assertEqual(verdict(revosti.mark_between, N, low, high, revosti.fresh_marks(N), [])[0], 7)

    def test_numbers_that_do_not_fit(self):
        for tables in (([*TABLE[:5], 2**32], TABLE), (TABLE, [*TABLE[:5], 2**32]), ([-1, *TABLE[1:]], TABLE)):
            self.assertRaises(OverflowError, revosti.mark_between, N, *tables, revosti.fresh_marks(N), LINES)
            self.assertRaises(OverflowError, revosti.list_between, N, *tables, revosti.fresh_marks(N), 1, 2, 3)


class Plain(Board):
    """The rules over two tables, from the words of the paper."""

    def __init__(self, n, low, high, struck):
        super().__init__(0, [None] * n, struck)
        self.low, self.high = (dict(zip(edges(n), table)) for table in (low, high))

    def least(self, a, b):
        """The low length of what is taken out."""
        return 0 if a == b else self.low[edge(a, b)]

    def most(self, a, b):
        """The high length of what is put in."""
        return 0 if a == b else self.high[edge(a, b)]

    def compatible(self, e, f):
        (p, q), (x, y), put = e, f, self.most
        return max(put(p, x) + put(q, y), put(p, y) + put(q, x)) >= self.least(*e) + self.least(*f)

    def moves(self, w, s, t, u, v):
        out, put = self.least, self.most
        return put(s, t) + put(u, w) + put(v, w) < out(u, v) + out(s, w) + out(t, w)


class Reading(unittest.TestCase):
    def test_lists(self):
        r, sizes = random.Random(2), {}
        for width in (0, 2, 10, 50):
            for _ in range(300):
                n = r.randint(4, 8)
                low, high = limits(r, n, width)
                marks = [r.choice((0, 1, 1, 1, 2)) for _ in edges(n)]
                (a, b), c = r.choice(edges(n)), r.randint(1, n)
                marks[revosti.place(n, a, b)] = r.choice((1, 2))
                plain = Plain(n, low, high, [e for e, mark in zip(edges(n), marks) if mark == 0]).standing({(a, b)}, c)
                self.assertEqual(revosti.list_between(n, low, high, packed(marks), a, b, c), plain)
                sizes[width] = sizes.get(width, 0) + len(plain)
        self.assertLess(sizes[0], sizes[50])


class Tours(unittest.TestCase):
    """Edges of shortest tours of tables between the two stay open after a run of sheets."""

    def line(self, plain, a, b):
        """A line that strikes ab, by a split whose every pair has a split without pairs, or None."""
        for c in range(1, plain.n + 1):
            pairs = plain.standing({(a, b)}, c)
            inner = [self.bare(plain, {(a, b), edge(c, x), edge(c, y)}) for x, y in pairs]
            if all(inner):
                nexts = [*range(3, len(pairs) + 2), 0]
                return [[1, a, b, 0, 0, c, 2 if pairs else 0, 0],
                        *([2, x, y, 0, 0, at, 0, following] for (x, y), at, following in zip(pairs, inner, nexts))]
        return None

    def bare(self, plain, k):
        """A point at which no pair stands under K, or None."""
        return next((c for c in range(1, plain.n + 1) if not plain.standing(k, c)), None)

    def run_of(self, n, low, high):
        """The edges struck by a run, and how many of its lines have cases."""
        marks, struck, deep = revosti.fresh_marks(n), [], 0
        for a, b in edges(n):
            sheet = self.line(Plain(n, low, high, struck), a, b)
            if sheet:
                self.assertEqual(revosti.mark_between(n, low, high, marks, sheet), 1)
                struck.append((a, b))
                deep += len(sheet) > 1
        self.assertEqual(marks, packed([0 if e in struck else 1 for e in edges(n)]))
        return set(struck), deep

    def shortest(self, n, table):
        """The edges of all shortest tours."""
        length = dict(zip(edges(n), table))
        tours = [[edge(*leg) for leg in pairwise((1, *rest, 1))] for rest in permutations(range(2, n + 1))]
        sums = [sum(map(length.get, tour)) for tour in tours]
        return {e for tour, total in zip(tours, sums) if total == min(sums) for e in tour}

    def test_tables_between(self):
        r, counts = random.Random(3), Counter()
        for _ in range(30):
            n = r.choice((5, 6))
            low, high = limits(r, n, r.choice((0, 3, 12)))
            struck, deep = self.run_of(n, low, high)
            alone = self.run_of(n, low, low)[0]
            tables = [low, high, *(within(r, low, high) for _ in range(6))]
            found = set().union(*(self.shortest(n, table) for table in tables))
            self.assertFalse(found & struck, (low, high))
            counts.update(strikes=len(struck), cases=deep, fewer=len(struck) < len(alone), spoilt=bool(found & alone))
        # what the low table alone strikes would spoil some of these boards
        self.assertTrue(counts["strikes"] > 40 and counts["cases"] > 5 and counts["fewer"] > 10 and counts["spoilt"] > 5, counts)
