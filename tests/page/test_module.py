"""target/revosti.wasm: what it takes and gives, and that it is the same each time it is built."""

import subprocess
import unittest
from itertools import combinations

from tests.support import ROOT
from tests.support.page.header import BUFFER, constants, functions, in_script, inline
from tests.support.page.opened import WASM, PageTest, page

TYPES = {16: "i32", 32: "i32", 64: "i64"}
VALUES = {0x7f: "i32", 0x7e: "i64"}
CODES = {0: "function", 2: "memory", 3: "global"}


def saving(answer):
    """The saving of an answer, which C divides towards 0."""
    signed = answer - (answer >> 63 << 64)
    return signed // 65536 if signed >= 0 else -(-signed // 65536)


PARTS = {  # the inline functions of the header, once more
    "refusal": lambda answer: answer & 0xff, "record": lambda answer: answer >> 8 & 0xffff, "lines": lambda answer: answer >> 24 & 0xffff,
    "isReleased": lambda answer: answer >> 40 & 1, "pairs": lambda answer: answer >> 16, "tourLength": lambda answer: answer >> 16,
    "tourOpen": lambda answer: answer >> 8 & 1, "points": lambda answer: answer >> 16 & 0xffffffff, "textLine": lambda answer: answer >> 8,
    "pageBytes": lambda answer: answer >> 16, "toldBytes": lambda answer: answer >> 16, "wrongLine": lambda answer: answer >> 8 & 0xff,
    "next": lambda answer: answer >> 16 & 0xffffffff, "desk": lambda answer: answer >> 48 & 0xff,
    "lineLeft": lambda answer: answer >> 56 & 1, "saving": saving,
}


class Reader:
    """A module read section by section."""

    def __init__(self, data):
        assert data[:8] == b"\0asm\1\0\0\0"
        self.data, self.at, self.sections = data, 8, {}
        while self.at < len(data):
            code, size = data[self.at], self.number(self.at + 1)
            self.sections[code] = self.at
            self.at += size

    def number(self, at=None):
        """A number in LEB128."""
        self.at = self.at if at is None else at
        value = shift = 0
        while True:
            byte = self.data[self.at]
            self.at += 1
            value |= (byte & 0x7f) << shift
            shift += 7
            if byte < 0x80:
                return value

    def items(self, code, read):
        """The items of a section, none where there is no such section."""
        if code not in self.sections:
            return []
        return [read() for _ in range(self.number(self.sections[code]))]

    def word(self):
        """A text of bytes."""
        size = self.number()
        self.at += size
        return self.data[self.at - size:self.at].decode()

    def values(self):
        """A list of value types."""
        return [VALUES[self.number()] for _ in range(self.number())]

    def type(self):
        """A function's type: what it takes, and what it answers."""
        assert self.number() == 0x60
        return self.values(), self.values()

    def imports(self):
        return self.items(2, lambda: self.number())

    def exports(self):
        """Name, kind and number of each export."""
        return self.items(7, lambda: (self.word(), CODES[self.number()], self.number()))

    def exported_functions(self):
        """The type of each function that is exported."""
        types, functions_ = self.items(1, self.type), self.items(3, self.number)
        return {name: types[functions_[number]] for name, kind, number in self.exports() if kind == "function"}


class Module(unittest.TestCase):
    def setUp(self):
        page()
        self.reader = Reader(WASM.read_bytes())

    def test_no_import(self):
        self.assertEqual(self.reader.imports(), [])

    def test_exactly_the_functions_of_the_header(self):
        found = {(name, kind) for name, kind, _ in self.reader.exports()}
        self.assertEqual(found, {("memory", "memory"), ("__heap_base", "global")} | {(name, "function") for name in functions()})

    def test_what_they_take(self):
        expected = {name: [word for one in function.parameters for word in (("i32", "i64") if one.width == BUFFER else (TYPES[one.width],))]
                    for name, function in functions().items()}
        self.assertEqual(self.reader.exported_functions(), {name: (given, ["i64"]) for name, given in expected.items()})

    def test_the_same_bytes_each_time(self):
        first, first_page = WASM.read_bytes(), page().read_bytes()
        WASM.unlink()
        subprocess.run([ROOT / "tools/page"], check=True)
        self.assertEqual(WASM.read_bytes(), first)
        self.assertEqual(page().read_bytes(), first_page)


class Script(PageTest):
    """page/revosti.js has what the header has."""

    def setUp(self):
        super().setUp()
        self.names = self.browser.run("""const all = await import("revosti/revosti");
            return Object.fromEntries(Object.keys(all).map((name) => [name, typeof all[name] === "number" ? all[name] : null]))""")

    def test_every_function(self):
        for name in [*functions(), *inline()]:
            self.assertIn(in_script(name), self.names)

    def test_its_numbers_are_those_of_the_header(self):
        numbers = {name: number for name, number in self.names.items() if number is not None}
        self.assertGreater(len(numbers), 15)
        self.assertEqual(numbers, {name: constants().get(name) for name in numbers})

    def test_parts_of_answers(self):
        """The inline functions, on numbers with each bit alone, and with each bit alone missing."""
        answers = [answer for bit in range(64) for answer in (1 << bit, 2**64 - 1 - (1 << bit))]
        found = self.browser.run("""const all = await import("revosti/revosti"), [names, answers] = given;
            return answers.map((answer) => names.map((name) => Number(all[name](BigInt(answer)))))""", list(PARTS), list(map(str, answers)))
        for answer, parts in zip(answers, found):
            self.assertEqual(parts, [float(part(answer)) for part in PARTS.values()], answer)

    def test_places_of_edges(self):
        sizes = (4, 5, 9, 180)
        found = self.browser.run("""const { edges, place, pageCount, toldSize, marksSize, markOf } = await import("revosti/revosti");
            const pairs = (n) => [...Array(n * n).keys()].map((i) => [1 + Math.floor(i / n), 1 + (i % n)]).filter(([a, b]) => a < b);
            const seen = (n, marks) => pairs(n).map(([a, b]) => [place(n, a, b), place(n, b, a), markOf(n, marks, a, b)]);
            return given.map((n) => [edges(n), pageCount(n), toldSize(n), marksSize(n), seen(n, [...Array(marksSize(n)).keys()])])""", *sizes)
        for n, (edges, pages, told, size, seen) in zip(sizes, found):
            self.assertEqual((edges, pages, size), (n * (n - 1) // 2, len(range(0, edges, 60)), len(range(0, edges, 4))))
            self.assertEqual(told, 128 * len(list(combinations(range(n - 1), 2))))
            self.assertEqual(seen, [[place, place, place // 4 >> 2 * (place % 4) & 3] for place in range(edges)])
