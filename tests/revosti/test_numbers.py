"""What the functions take for numbers, tables, points and sheets, and what they say of other things."""

import ctypes
import inspect
import unittest
from array import array
from itertools import combinations

from tests.support import ROOT
from tests.support.square import LINES, N, POINTS, TABLE

import revosti
from revosti import operations
from revosti.library import library


class Points(unittest.TestCase):
    def refused(self, number, call, *arguments):
        """The call is refused so."""
        with self.subTest((call, arguments)), self.assertRaises(revosti.Refusal) as caught:
            call(*arguments)
        self.assertEqual(caught.exception.number, number)

    def test_points_outside(self):
        marks = revosti.fresh_marks(N)
        for a, b in ((0, 1), (1, 0), (-1, 2), (5, 1), (1, 5), (2, 2), (0, 0), (4, 65536), (10**30, 1)):
            self.refused(11, revosti.place, N, a, b)
            self.refused(11, revosti.mark_of, N, marks, a, b)

    def test_n_outside(self):
        for n in (-4, 0, 3, 181, 10**30):
            self.refused(1, revosti.place, n, 1, 2)
            self.refused(1, revosti.mark_of, n, b"", 1, 2)

    def test_sets_of_another_size(self):
        for marks in (b"", bytes(1), bytes(3)):
            self.refused(6, revosti.mark_of, N, marks, 1, 2)

    def test_every_edge(self):
        marks = revosti.fresh_marks(5)
        for a, b in combinations(range(1, 6), 2):
            self.assertEqual(revosti.mark_of(5, marks, a, b), revosti.OPEN)
            self.assertEqual(revosti.mark_of(5, bytes(marks), b, a), revosti.OPEN)


class Tables(unittest.TestCase):
    def test_tables_are_arrays(self):
        for table in (revosti.measure(N, 1, POINTS), revosti.read_tsplib((ROOT / "examples/square.tsp").read_bytes()).table):
            self.assertEqual((table, table.typecode), (TABLE, "I"))

    def test_an_array_is_lent_as_it_is(self):
        """Nothing is copied: the function gets the array's own place in memory."""
        for table, same in ((TABLE, True), (list(TABLE), False), (array("L", TABLE), False)):
            lent, size = operations.lend_tables({"table": table})
            self.assertEqual((ctypes.addressof(lent) == TABLE.buffer_info()[0], size), (same, 24))

    def test_numbers_of_any_kind(self):
        marks = revosti.fresh_marks(N)
        for table in (TABLE, list(TABLE), tuple(TABLE), array("H", TABLE), array("q", TABLE), iter(TABLE), (length for length in TABLE)):
            self.assertEqual(revosti.exchange_saving(N, table, 1, 3, 2, 4), 8)
        self.assertEqual(revosti.check_tour(N, iter(TABLE), marks, (point for point in (1, 2, 3, 4))), (40, True))
        self.assertEqual(revosti.list_pairs(N, iter(TABLE), marks, 1, 2, 3), [(1, 4), (2, 4)])

    def test_pages_into_an_array_and_a_list(self):
        marks = revosti.fresh_marks(N)
        page = revosti.write_page(N, TABLE, marks, 1)
        for table in (array("I", [0] * 6), [0] * 6):
            revosti.read_page(N, 1, page, table, marks)
            self.assertEqual(list(table), list(TABLE))


class Generators(unittest.TestCase):
    def test_coordinates(self):
        for points in (iter(POINTS), (iter(point) for point in POINTS), (number for point in POINTS for number in point),
                       map(tuple, POINTS)):
            self.assertEqual(revosti.measure(N, 1, points), TABLE)

    def test_sheets(self):
        for sheet in (iter(LINES), (tuple(line) for line in LINES), (iter(line) for line in LINES)):
            marks = revosti.fresh_marks(N)
            self.assertEqual(revosti.mark_sheet(N, TABLE, marks, sheet), 2)
            self.assertEqual([revosti.mark_of(N, marks, *edge) for edge in ((1, 3), (2, 4), (1, 2))], [0, 0, 1])

    def test_uneven_points(self):
        for points, words in (([(0, 0), (10,), (10, 10, 0), (0, 10)], "coordinates: point 2 has 1 numbers, not 2"),
                              ([(0, 0, 10), (0, 10, 10), (0, 10)], "coordinates: point 1 has 3 numbers, not 2")):
            with self.assertRaises(ValueError) as caught:
                revosti.measure(N, 1, points)
            self.assertEqual(str(caught.exception), words)

    def test_uneven_records(self):
        for sheet in ([LINES[0], LINES[1][:7]], (iter(line) for line in [LINES[0], [*LINES[1], 0]])):
            with self.assertRaisesRegex(ValueError, r"^sheet: record 2 has [79] numbers, not 8$"):
                revosti.mark_sheet(N, TABLE, revosti.fresh_marks(N), sheet)


class Names(unittest.TestCase):
    """What is wrong is told with the argument's name."""

    def test_each_argument(self):
        marks, text, desks = revosti.fresh_marks(N), bytes(25), revosti.open_desks()
        calls = {revosti.measure: (N, 1, POINTS), revosti.read_tsplib: (b"",), revosti.tsplib_points: (b"",), revosti.fresh_marks: (N,),
                 revosti.pack_marks: (N, bytes(6)), revosti.unpack_marks: (N, marks), revosti.mark_sheet: (N, TABLE, marks, LINES),
                 revosti.ask_sheet: (N, TABLE, marks, LINES), revosti.mark_between: (N, TABLE, TABLE, marks, LINES),
                 revosti.confirm: (N, marks), revosti.withdraw: (N, marks), revosti.list_pairs: (N, TABLE, marks, 1, 2, 3),
                 revosti.list_between: (N, TABLE, TABLE, marks, 1, 2, 3), revosti.check_tour: (N, TABLE, marks, [1, 2, 3, 4]),
                 revosti.exchange_saving: (N, TABLE, 1, 2, 3, 4), revosti.move_saving: (N, TABLE, 1, 2, 3, 4, 2),
                 revosti.crossing_saving: (N, TABLE, 1, 2, 3, 4, 1, 2, 3, 4), revosti.place: (N, 1, 2), revosti.mark_of: (N, marks, 1, 2),
                 revosti.marks_size: (N,), revosti.page_count: (N,), revosti.write_page: (N, TABLE, marks, 1),
                 revosti.read_page: (N, 1, text, TABLE, marks), revosti.new_slip: (N, TABLE, marks, LINES),
                 revosti.new_slip_between: (N, TABLE, TABLE, marks, LINES), revosti.release: (0,), revosti.examiner_view: (0,),
                 revosti.candidate_view: (0,), revosti.open_desks: (), revosti.hand_in: (desks, 1, N, TABLE, marks, LINES),
                 revosti.next_desk: (desks,), revosti.turn: (desks, N, TABLE, marks, LINES), revosti.last_served: (desks,),
                 revosti.desk_of: (desks, 1), revosti.tell_line: (N, TABLE, marks, LINES, 1)}
        self.assertEqual({call.__name__ for call in calls} | {"meaning"},
                         {name for name in revosti.__all__ if inspect.isfunction(getattr(revosti, name))})
        for call, arguments in calls.items():
            for at, name in enumerate(inspect.signature(call).parameters):
                for wrong in (1.5, "some") if name != "sheet" else (1.5, [1.5], [[1.5] * 8]):
                    with self.subTest((call, name, wrong)), self.assertRaisesRegex(TypeError, f"^{name}: "):
                        call(*arguments[:at], wrong, *arguments[at + 1:])

    def test_numbers_too_large(self):
        for call, words in ((lambda: revosti.measure(2**32, 1, POINTS), "n"), (lambda: revosti.measure(N, -1, POINTS), "rule"),
                            (lambda: revosti.measure(N, 1, [(0, 2**32)]), "coordinates"),
                            (lambda: revosti.check_tour(N, TABLE, b"", [2**16]), "tour"),
                            (lambda: revosti.exchange_saving(N, [2**32], 1, 2, 3, 4), "table"),
                            (lambda: revosti.exchange_saving(N, TABLE, 1, 2, 2**16, 4), "x"),
                            (lambda: revosti.mark_between(N, TABLE, [-1], bytearray(2), LINES), "high"),
                            (lambda: revosti.release(2**64), "slip"),
                            (lambda: revosti.tell_line(N, TABLE, bytes(2), LINES, 2**32), "record")):
            with self.subTest(words), self.assertRaisesRegex(OverflowError, f"^{words}: "):
                call()


class Types(unittest.TestCase):
    """Every function says what it takes and gives."""

    def test_annotations(self):
        for name in revosti.__all__:
            function = getattr(revosti, name)
            if inspect.isfunction(function):
                self.assertEqual(set(function.__annotations__), {*inspect.signature(function).parameters, "return"}, name)

    def test_the_marker_file(self):
        self.assertTrue((ROOT / "tools/revosti/py.typed").exists())

    def test_loaded_once(self):
        self.assertIs(library(), library())
