"""TSPLIB texts over the library: tables, lines of faults, every refusal and their order."""

import random
import unittest
from array import array

from tests.support import ROOT
from tests.support.square import N, POINTS, TABLE
from tests.support.texts import FAULTS, NODES, SQUARES, WEIGHTS, put, text

import revosti
from revosti.library import library
from revosti.operations import copy, lend
from revosti_command.edges import RULES
from revosti_command.parts import Parts
from revosti_command.tsplib import BadBoard, read_board, write_board

MOST = 2**32 - 1


def refusal(call, *arguments):
    """The number and the line that a call is refused by, or what it answers."""
    try:
        return call(*arguments)
    except revosti.Refusal as found:
        assert (found.record, found.lines) == (0, 0)
        return found.number, found.text_line


def read_into(data, table):
    """The answer in C, with this table lent, and the table that is left."""
    return library().revosti_read_tsplib(*lend(copy(data)), *lend(table)), table


def coordinates(n, rule="EUC_2D", last=0):
    """A text of n nodes in a row, the last of which is so high."""
    nodes = [f"{i} {i} {last if i == n else 0}" for i in range(1, n + 1)]
    return text([f"DIMENSION : {n}", f"EDGE_WEIGHT_TYPE : {rule}", "NODE_COORD_SECTION", *nodes, "EOF"])


def weights(n, numbers, width=7):
    """A text of n points with these weights, so many a line."""
    rows = [" ".join(map(str, numbers[i:i + width])) for i in range(0, len(numbers), width)]
    return text([f"DIMENSION : {n}", "EDGE_WEIGHT_TYPE : EXPLICIT", "EDGE_WEIGHT_FORMAT : UPPER_ROW", "EDGE_WEIGHT_SECTION", *rows, "EOF"])


class Read(unittest.TestCase):
    def test_every_shape(self):
        for name, data in SQUARES.items():
            self.assertEqual((revosti.read_tsplib(data), revosti.tsplib_points(data)), ((N, TABLE), N), name)

    def test_fields(self):
        found = revosti.read_tsplib(text(NODES))
        self.assertEqual((found.n, found.table), (N, TABLE))

    def test_any_bytes(self):
        for data in (bytearray(text(NODES)), memoryview(text(NODES))):
            self.assertEqual(revosti.read_tsplib(data), (N, TABLE))
        with self.assertRaises(TypeError):
            revosti.read_tsplib(text(NODES).decode())

    def test_coordinates_are_measured(self):
        r = random.Random(1)
        for rule, n in ((rule, n) for rule in RULES for n in (4, 5, 9, 180)):
            points = [(r.randint(0, 1_000_000), r.randint(0, 1_000_000)) for _ in range(n)]
            data = write_board(Parts(rule, n, points, [], b"")).encode()
            self.assertEqual(revosti.read_tsplib(data), (n, revosti.measure(n, rule, points)))
            self.assertEqual(read_board(data), (rule, n, points, [], b""))

    def test_weights(self):
        r = random.Random(2)
        for n in (4, 5, 9, 180):
            table = [r.choice([0, 1, 2_000_000, r.randint(0, 2_000_000)]) for _ in range(n * (n - 1) // 2)]
            for width in (1, 2, 7, len(table)):
                self.assertEqual(revosti.read_tsplib(weights(n, table, width)), (n, array("I", table)))

    def test_answers(self):
        for data in (text(NODES), text(WEIGHTS)):
            answer, table = read_into(data, array("I", [7]) * 6)
            self.assertEqual((answer, table), (65536 * 4, TABLE))
            self.assertEqual(library().revosti_tsplib_points(*lend(copy(data))), 65536 * 4)


class Outside(unittest.TestCase):
    """19, with its line."""

    def test_each_fault(self):
        for data, line, _ in FAULTS:
            for call in (revosti.read_tsplib, revosti.tsplib_points):
                self.assertEqual(refusal(call, data), (19, line), data)
            self.assertEqual(read_into(data, array("I", [7]) * 6), (19 + 256 * line, array("I", [7]) * 6))

    def test_cut_at_every_byte(self):
        for whole in (text(NODES), text(WEIGHTS)):
            for end in range(len(whole)):
                self.assertEqual(refusal(revosti.read_tsplib, whole[:end]), (19, whole[:end].count(b"\n") + 1))

    def test_words(self):
        with self.assertRaises(revosti.Refusal) as caught:
            revosti.read_tsplib(b"")
        self.assertEqual(str(caught.exception),
                         "Refused, number 19, line 1: The text is no TSPLIB text as they are read here (docs/FORMATS.md).")

    def test_many_lines(self):
        data = put(NODES, 1, *["COMMENT :"] * 70_000)
        self.assertEqual(revosti.read_tsplib(data), (N, TABLE))
        self.assertEqual(refusal(revosti.tsplib_points, data + b"\n"), (19, 70_000 + len(NODES) + 1))


class Refusals(unittest.TestCase):
    def test_points(self):
        for n in (0, 1, 2, 3, 181, 1000):
            data = coordinates(n)
            self.assertEqual((refusal(revosti.read_tsplib, data), revosti.tsplib_points(data)), ((1, 0), n))
        for n in (0, 1, 3, 181):
            data = weights(n, [1] * (n * (n - 1) // 2))
            self.assertEqual((refusal(revosti.read_tsplib, data), revosti.tsplib_points(data)), ((1, 0), n))

    def test_largest_dimension(self):
        data = text([f"DIMENSION : {MOST}", "EDGE_WEIGHT_TYPE : ATT", "NODE_COORD_SECTION", "1 0 0", "EOF"])
        self.assertEqual(refusal(revosti.read_tsplib, data), (19, 5))

    def test_coordinate(self):
        for high, wanted in ((1_000_000, None), (1_000_001, (4, 0)), (MOST, (4, 0))):
            for rule in RULES.values():
                found = refusal(revosti.read_tsplib, coordinates(5, rule, high))
                self.assertEqual(found, wanted or (5, revosti.measure(5, *measured(rule, high))))

    def test_weight(self):
        for at in range(6):
            for weight, wanted in ((2_000_000, None), (2_000_001, (5, 0)), (MOST, (5, 0))):
                table = TABLE[:at] + array("I", [weight]) + TABLE[at + 1:]
                self.assertEqual(refusal(revosti.read_tsplib, weights(4, table)), wanted or (4, table))

    def test_order_and_sizes(self):
        far, heavy = coordinates(4, last=MOST), weights(4, [MOST] * 6)
        for data, number in ((far, 4), (heavy, 5)):
            self.assertEqual(read_into(data, array("I", [7]) * 6), (number, array("I", [7]) * 6))
        for size in (0, 1, 20, 23, 25, 28, 64440):
            for data in (far, heavy, text(NODES), text(WEIGHTS)):
                self.assertEqual(read_into(data, bytearray(size)), (2, bytearray(size)))
            for data in (coordinates(3, last=MOST), weights(181, [MOST] * 16290)):
                self.assertEqual(read_into(data, bytearray(size)), (1, bytearray(size)))
            for data in (coordinates(3, last=MOST)[:-1], far + b"\n", heavy[:-1]):
                answer, left = read_into(data, bytearray(size))
                self.assertEqual((answer & 0xff, left), (19, bytearray(size)))


def measured(name, high):
    """The rule of this name, and the five nodes of `coordinates`."""
    return next(rule for rule in RULES if RULES[rule] == name), [(i, high if i == 5 else 0) for i in range(1, 6)]


class Damaged(unittest.TestCase):
    """Texts damaged at random: a board that is taken is the one that the library reads, and a refusal is told in words."""

    def check(self, data):
        """Whether the text is one."""
        try:
            n = revosti.tsplib_points(data)
        except revosti.Refusal as found:
            with self.assertRaises(BadBoard) as caught:
                read_board(data)
            self.assertEqual(caught.exception.line, found.text_line, data)
            self.assertRegex(caught.exception.message, "^expected ")
            return False
        try:
            rule, count, points, _, _ = read_board(data)
        except BadBoard as found:
            self.assertIn("EXPLICIT", found.message)
            return True
        self.assertEqual((count, len(points)), (n, n))
        self.assertEqual(refusal(revosti.read_tsplib, data), refusal(lambda: (n, revosti.measure(n, rule, points))), data)
        return True

    def test_bytes(self):
        r, seen = random.Random(3), []
        for _ in range(4000):
            data = bytearray(r.choice(list(SQUARES.values())[:-1]))
            for _ in range(r.randint(1, 2)):
                at = r.randrange(len(data))
                data[at:at + r.randint(0, 1)] = r.choice([b"", b" ", b"\n", b":", b"0", b"7", b"\t", b"\r", b".", r.randbytes(1)])
            seen.append(self.check(bytes(data)))
        self.assertGreater(seen.count(True), 400)
        self.assertGreater(seen.count(False), 1000)

    def test_lines(self):
        r, seen = random.Random(4), []
        for _ in range(4000):
            lines = r.choice([NODES, WEIGHTS])[:]
            for _ in range(r.randint(1, 3)):
                i, j = r.randrange(len(lines)), r.randrange(len(lines))
                lines[i:i + r.randint(0, 1)] = r.choice([[], [lines[j]], [r.choice(NODES + WEIGHTS)]])
            seen.append(self.check(text(lines)))
        self.assertGreater(seen.count(True), 50)
        self.assertGreater(seen.count(False), 1000)

    def test_noise(self):
        r = random.Random(5)
        for length in range(300):
            self.check(r.randbytes(length))
            self.check(bytes(r.choice(b" \n:0EOF") for _ in range(length)))


class Examples(unittest.TestCase):
    def test_examples(self):
        for name in ("square.tsp", "square_weights.tsp"):
            self.assertEqual(revosti.read_tsplib((ROOT / "examples" / name).read_bytes()), (N, TABLE))
        self.assertEqual(read_board((ROOT / "examples/square.tsp").read_bytes()), (1, N, POINTS, [], b""))
