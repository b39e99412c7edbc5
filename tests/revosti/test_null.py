"""Buffers of length 0 may be NULL: every function for C answers as it does to an empty buffer, and lists into NULL where no pair stands."""

import ctypes
import unittest
from array import array
from itertools import product

from tests.support.square import N, TABLE

import revosti
from revosti.library import ARGUMENTS, BUFFER, SAVINGS, library
from revosti.operations import WORD, lend

POINTER = BUFFER[0]
FUNCTIONS = {name: arguments for name, arguments in (ARGUMENTS | SAVINGS).items() if POINTER in arguments}
SIZE, MARKS, TEXT, VIEW = 2, 6, 19 + 256, 22  # how an empty buffer is refused: a table, marks, a text at its line 1, a view or a state


def call(name, number, pointer):
    """What a function answers to this number everywhere and to buffers of length 0."""
    slots = [pointer() if kind is POINTER else 0 if kind is ctypes.c_size_t else number for kind in FUNCTIONS[name]]
    return getattr(library(), name)(*slots)


class Null(unittest.TestCase):
    def test_as_an_empty_buffer(self):
        for name, n in product(FUNCTIONS, (3, 4, 180)):
            with self.subTest(name, n=n):
                self.assertEqual(call(name, n, lambda: None), call(name, n, lambda: (ctypes.c_uint8 * 0)()))

    def test_refused(self):
        for name, number in {"measure": SIZE, "mark_sheet": SIZE, "ask_sheet": SIZE, "list_pairs": SIZE, "check_tour": SIZE,
                             "mark_between": SIZE, "list_between": SIZE, "write_page": SIZE, "read_page": SIZE, "move_saving": SIZE,
                             "fresh_marks": MARKS, "pack_marks": MARKS, "unpack_marks": MARKS, "confirm": MARKS, "withdraw": MARKS,
                             "read_tsplib": TEXT, "tsplib_points": TEXT, "examiner_view": VIEW, "candidate_view": VIEW,
                             "open_desks": VIEW, "hand_in": VIEW, "next_desk": VIEW, "turn": VIEW, "tell_line": SIZE}.items():
            with self.subTest(name):
                self.assertEqual(call("revosti_" + name, 4, lambda: None), number)

    def test_a_list_where_no_pair_stands(self):
        table, marks = array(WORD, TABLE), revosti.fresh_marks(N)
        for (a, b, c), answer in (((1, 3, 2), 0), ((1, 2, 3), 18)):
            self.assertEqual(library().revosti_list_pairs(N, *lend(table), *lend(marks), a, b, c, None, 0), answer)
