"""The inline functions for packed sets in include/revosti.h, compiled as C99 and as C++, against sets made by another way; and those for
the answers of a saving, a TSPLIB text and a told line and for a slip. Its names for kinds and refusals are those of Python."""

import ctypes
import re
import shutil
import subprocess
import tempfile
import unittest
from itertools import combinations
from pathlib import Path

from tests.support.packing import SIZES, packed, some
from tests.support import ROOT

from revosti.refusal import REFUSALS
from revosti_command import parts

STRICT = ("-Wall", "-Wextra", "-Wpedantic", "-Wconversion", "-Werror", "-O2", "-shared", "-fPIC")
SOURCE = """
#include "revosti.h"
#ifdef __cplusplus
extern "C" {
#endif
size_t size(uint32_t n);
unsigned mark(uint32_t n, const uint8_t *marks, uint32_t a, uint32_t b);
int64_t saving(int64_t answer);
unsigned refusal(int64_t answer);
int released(uint64_t slip);
uint32_t points(uint64_t answer);
uint64_t line(uint64_t answer);
uint32_t pages(uint32_t n);
size_t page_bytes(uint64_t answer);
unsigned wrong_line(uint64_t answer);
size_t told_bytes(uint64_t answer);
size_t told_size(uint32_t n);
size_t size(uint32_t n) { return revosti_marks_size(n); }
unsigned mark(uint32_t n, const uint8_t *marks, uint32_t a, uint32_t b) { return revosti_mark_of(n, marks, a, b); }
int64_t saving(int64_t answer) { return revosti_saving(answer); }
unsigned refusal(int64_t answer) { return revosti_refusal((uint64_t)answer); }
int released(uint64_t slip) { return revosti_is_released(slip); }
uint32_t points(uint64_t answer) { return revosti_points(answer); }
uint64_t line(uint64_t answer) { return revosti_text_line(answer); }
uint32_t pages(uint32_t n) { return revosti_page_count(n); }
size_t page_bytes(uint64_t answer) { return revosti_page_bytes(answer); }
unsigned wrong_line(uint64_t answer) { return revosti_wrong_line(answer); }
size_t told_bytes(uint64_t answer) { return revosti_told_bytes(answer); }
size_t told_size(uint32_t n) { return revosti_told_size(n); }
#ifdef __cplusplus
}
#endif
"""


def compiled(folder, *words):
    """The two functions, compiled so, beside a second file that has the header, too."""
    first, second, out = (Path(folder) / name for name in ("first", "second", "header.so"))
    first.write_text(SOURCE)
    second.write_text('#include "revosti.h"\n')
    subprocess.run([*words, first, second, *STRICT, "-I", ROOT / "include", "-o", out], check=True)
    functions = ctypes.CDLL(str(out))
    functions.size.restype = functions.page_bytes.restype = functions.told_bytes.restype = functions.told_size.restype = ctypes.c_size_t
    functions.saving.restype = ctypes.c_int64
    functions.saving.argtypes = functions.refusal.argtypes = (ctypes.c_int64,)
    for function in (functions.released, functions.page_bytes, functions.wrong_line, functions.told_bytes):
        function.argtypes = (ctypes.c_uint64,)
    functions.points.restype, functions.line.restype = ctypes.c_uint32, ctypes.c_uint64
    functions.points.argtypes = functions.line.argtypes = (ctypes.c_uint64,)
    return functions


class Inline:
    """What holds of the functions, however they are compiled."""

    def test_sizes(self):
        self.assertEqual({n: self.functions.size(n) for n in SIZES}, SIZES)

    def test_each_edge_in_both_orders(self):
        for n in SIZES:
            every, marks = list(combinations(range(1, n + 1), 2)), some(n)
            data = bytes(packed(marks))
            self.assertEqual([self.functions.mark(n, data, a, b) for a, b in every], marks, n)
            self.assertEqual([self.functions.mark(n, data, b, a) for a, b in every], marks, n)

    def test_one_edge_alone(self):
        for n in range(4, 13):
            every = list(combinations(range(1, n + 1), 2))
            for edge in every:
                data = bytes(packed([2 if other == edge else 1 for other in every]))
                self.assertEqual([other for other in every if self.functions.mark(n, data, *other) == 2], [edge])

    def test_answers_of_a_saving(self):
        for saving in (0, 1, -1, 8, -8, 255, -255, -256, 65535, -65535, 65536, -65536, 6_000_000, -6_000_000):
            answer = 65536 * saving
            self.assertEqual((self.functions.refusal(answer), self.functions.saving(answer)), (0, saving))
        for number in (1, 2, 5, 11):
            self.assertEqual((self.functions.refusal(number), self.functions.saving(number)), (number, 0))

    def test_a_released_slip(self):
        for bit in range(64):
            self.assertEqual(self.functions.released(1 << bit), bit == 40)
            self.assertEqual(self.functions.released(2**64 - 1 - (1 << bit)), bit != 40)

    def test_answers_of_a_text(self):
        for n in (0, 1, 4, 180, 181, 65536, 2**32 - 1):
            self.assertEqual((self.functions.refusal(65536 * n), self.functions.points(65536 * n)), (0, n))
        for line in (1, 2, 255, 256, 65536, 2**32, 2**56 - 1):
            answer = 19 + 256 * line
            self.assertEqual((self.functions.refusal(ctypes.c_int64(answer).value), self.functions.line(answer)), (19, line))
        for number in (1, 2, 4, 5):
            self.assertEqual((self.functions.refusal(number), self.functions.line(number)), (number, 0))

    def test_pages(self):
        for n in range(4, 181):
            self.assertEqual(self.functions.pages(n), len(range(0, n * (n - 1) // 2, 60)))
        for size in (0, 25, 1475, 1500):
            self.assertEqual((self.functions.page_bytes(65536 * size), self.functions.refusal(65536 * size)), (size, 0))
        for line in (1, 2, 60, 61):
            answer = 27 + 256 * line
            self.assertEqual((self.functions.refusal(answer), self.functions.wrong_line(answer)), (27, line))

    def test_told_lines(self):
        for n in range(4, 181):
            self.assertEqual(self.functions.told_size(n), 128 * len(list(combinations(range(2, n + 1), 2))))
        for size in (3 * 46, 65535, 65536, 15931 * 128):
            self.assertEqual((self.functions.told_bytes(65536 * size), self.functions.refusal(65536 * size)), (size, 0))

    def test_refusal_of_other_answers(self):
        for answer, number in ((21, 21), (18, 18), (16 + 256 * 3, 16), (14 + 256 * 4000 + 16_777_216 * 7, 14), (65536 * 40 + 256, 0)):
            self.assertEqual(self.functions.refusal(answer), number)


class Names(unittest.TestCase):
    """The numbers behind the names."""

    HEADER = (ROOT / "include/revosti.h").read_text(encoding="utf-8")

    def test_kinds(self):
        names = ("LINE", "SPLIT", "CROSSING", "STRETCH", "STRETCH_POINT")
        found = re.findall(r"REVOSTI_(\w+) = (\d+),? +/\* kind (\d+): ", self.HEADER)
        self.assertEqual(found, [(name, str(kind), str(kind)) for kind, name in enumerate(names, 1)])
        self.assertEqual([getattr(parts, name) for name in names], [1, 2, 3, 4, 5])

    def test_refusals(self):
        found = dict(re.findall(r"REVOSTI_(\w+) = (\d+)", self.HEADER.partition("/* Refusal numbers.")[2].partition("};")[0]))
        self.assertEqual(list(map(int, found.values())), [0, *REFUSALS])
        self.assertEqual((found["NO_STRETCH"], found["NOT_SHORTER"], found["LIMITS"]), ("23", "24", "25"))


class Compiled(unittest.TestCase):
    """Compiles once for all tests of a class."""

    COMPILER = ()

    @classmethod
    def setUpClass(cls):
        holder = tempfile.TemporaryDirectory()
        cls.addClassCleanup(holder.cleanup)
        cls.functions = compiled(holder.name, *cls.COMPILER)


class C99(Inline, Compiled):
    COMPILER = ("gcc", "-std=c99", "-x", "c")


@unittest.skipUnless(shutil.which("g++"), "there is no g++")
class Cpp(Inline, Compiled):
    COMPILER = ("g++", "-std=c++11", "-x", "c++")
