"""pack and unpack undo each other, on every kind of file."""

import itertools
import random
import re
import struct
import unittest

from tests.support import EXAMPLES
from tests.support.command import NINE, SQUARE_HEAD, SQUARE_RECORDS, binary

from revosti_command.parts import join, split
from revosti_command.read import pack
from revosti_command.write import unpack


def packed(text):
    """The bytes that a text packs to."""
    return join(pack(text).parts)


def random_index(r, k, count):
    """An index that is often the usual one."""
    return r.choice([0, k + 1, k + 1, k + 2, r.randrange(count + 3), r.randrange(65536)])


def random_record(r, k, count):
    """A record that often fits its place."""
    odd = r.choice([0, 0, 0, 7, 65535])
    kind = r.choice([1, 2, 2, 3, 3, 4, 5, 5, 0, r.randrange(65536)])
    point = lambda: r.choice([r.randrange(1, 9), r.randrange(65536)])
    if kind == 4:
        return kind, point(), point(), point(), point(), odd, random_index(r, k, count), random_index(r, k, count)
    if kind == 5 and r.random() < 0.8:
        return kind, point(), 0, 0, 0, 0, 0, r.choice([0, k + 1, random_index(r, k, count)])
    u, v = (point(), point()) if kind == 3 else (odd, r.choice([0, odd]))
    d = point() if kind == 3 else random_index(r, k, count)
    return kind, point(), point(), u, v, point(), d, random_index(r, k, count)


def random_file(r):
    """A file of any kind, whole or damaged."""
    n, count = r.randrange(9), r.randrange(25)
    points = [(r.randrange(2**32), r.randrange(1000)) for _ in range(n)]
    records = [random_record(r, k, count) for k in range(1, count + 1)]
    stated = r.choice([None, None, None, n + 3, r.randrange(2**32)])
    data = binary(records, points, r.choice([r.randrange(7), r.randrange(2**32)]), stated,
                  r.randbytes(r.choice([0, 0, r.randrange(16)])))
    return data[:r.randrange(len(data) + 1)] if r.random() < 0.15 else data


def random_chain(r, depth):
    """The lines of a chain of cases, as `unpack` writes them, splits, crossings and new orders one inside another."""
    lines = []
    for _ in range(r.randrange(4)):
        a, b, c, d = (r.randrange(1, 10) for _ in range(4))
        order = "-".join(str(r.randrange(1, 181)) for _ in range(r.randrange(2, 15)))
        closing = r.choice([f"split at {c}", f"crossing {a}-{c}, centres {b} {d}", f"order {order}"])
        lines += [f"{'  ' * depth}pair {a}-{b}: {closing}"]
        lines += random_chain(r, depth + 1) if closing.startswith("split") and depth < 6 else []
    return lines


def random_sheet(r):
    """The lines of a sheet on the square."""
    return [line for _ in range(r.randrange(1, 5)) for line in ("strike 1-2, split at 3", *random_chain(r, 1))]


class Both(unittest.TestCase):
    """A case with the check that all share."""

    def there_and_back(self, data):
        """Check one file; its text. That the bytes come back means that the
        text does too: it is unpack's answer for those bytes."""
        text = unpack(split(data))
        self.assertEqual(packed(text), data, text)
        return text


class RoundTrip(Both):
    """Whole, random and damaged files."""

    def test_parts(self):
        r = random.Random(1)
        for _ in range(500):
            data = random_file(r)
            self.assertEqual(join(split(data)), data)

    def test_noise_of_every_length(self):
        r = random.Random(2)
        for length in range(400):
            self.there_and_back(r.randbytes(length))

    def test_noise_with_few_points(self):
        r = random.Random(3)
        for _ in range(800):
            n = r.randrange(4)
            self.there_and_back(struct.pack("<II", 1, n) + r.randbytes(r.randrange(200)))

    def test_random_files(self):
        r = random.Random(4)
        for _ in range(2000):
            self.there_and_back(random_file(r))

    def test_random_sheets(self):
        r, orders, inside = random.Random(8), 0, 0
        for _ in range(400):
            text = SQUARE_HEAD + "\n".join([*random_sheet(r), ""])
            self.assertEqual(self.there_and_back(packed(text)), text)
            orders, inside = orders + text.count("order"), inside + len(re.findall(r"^ {6,}pair .* order", text, re.M))
        self.assertGreater(min(orders, inside), 200)

    def test_damaged_order(self):
        r, sheet, rows = random.Random(9), (EXAMPLES / "stretch.bin").read_bytes(), set()
        for _ in range(3000):
            data = bytearray(sheet)
            for _ in range(r.randrange(1, 4)):
                data[r.randrange(56, len(data))] = r.choice([0, 1, 4, 5, 6, 7, 8, r.randrange(256)])
            text = self.there_and_back(bytes(data))
            rows |= set(re.findall(r"order from|order \d|point \d+, [a-z]|, first|, c |, next|record 4|record 5|unused 5", text))
        self.assertGreaterEqual(len(rows), 9)

    def test_all_pairs_of_records(self):
        plain = [(kind, 1, 2, u, 0, 3, d, after)
                 for kind in (1, 2, 3, 4, 5, 9) for u in (0, 5) for d in range(4) for after in range(4)]
        for first, second in itertools.product(plain[::3], plain):
            self.there_and_back(binary([first, second], []))

    def test_damaged_sheet(self):
        r, sheet = random.Random(5), packed(NINE.read_text())
        for _ in range(250):
            data = bytearray(sheet)
            for _ in range(r.randrange(1, 6)):
                data[r.randrange(len(data))] = r.choice([0, 1, 2, 3, r.randrange(256)])
            self.there_and_back(bytes(data))

    def test_spliced_sheet(self):
        r, sheet = random.Random(6), packed(NINE.read_text())
        for _ in range(250):
            i, j, k = sorted(r.randrange(len(sheet) + 1) for _ in range(3))
            self.there_and_back(r.choice([sheet[:i] + sheet[j:], sheet[:k] + sheet[i:]]))

    def test_every_prefix(self):
        sheet = packed(NINE.read_text())
        for end in range(0, len(sheet), 5):
            self.there_and_back(sheet[:end])

    def test_numbers_are_comments(self):
        r = random.Random(7)
        for _ in range(300):
            data = random_file(r)
            self.assertEqual(packed(unpack(split(data), numbers=True)), data)

    def test_three_records_with_an_order(self):
        order = [(4, 1, 2, 3, 4, c, d, after) for c in (0, 5) for d in range(5) for after in range(5)]
        points = [(kind, 7, b, 0, 0, 0, d, after) for kind in (5, 4, 2) for b, d in ((0, 0), (1, 0), (0, 3)) for after in range(6)]
        for second, third in itertools.product(order, points):
            self.there_and_back(binary([(1, 1, 2, 0, 0, 3, 2, 0), second, third, (5, 8, 0, 0, 0, 0, 0, 0)], []))

    def test_good_sheet_needs_no_indexes(self):
        text = self.there_and_back(packed(NINE.read_text()))
        self.assertEqual(text, NINE.read_text())
        for word in ("first", "next", "record", "unused", "bytes"):
            self.assertNotIn(word, text)


class Extremes(Both):
    """Files at and past the limits."""

    def test_four_billion_points(self):
        text = self.there_and_back(binary(SQUARE_RECORDS, n=4_000_000_000))
        self.assertIn("points 4000000000, cut\n", text)

    def test_splits_4000_deep(self):
        deep = [(1 if k == 1 else 2, 1, 2, 0, 0, 3, k + 1, 0) for k in range(1, 4001)]
        text = self.there_and_back(binary(deep))
        self.assertLess(len(text), 400_000)

    def test_longest_order(self):
        chain = [(5, k % 181, 0, 0, 0, 0, 0, k + 1 if k < 4000 else 0) for k in range(3, 4001)]
        text = self.there_and_back(binary([(1, 1, 2, 0, 0, 3, 2, 0), (4, 1, 2, 3, 4, 0, 3, 0), *chain]))
        self.assertEqual(text.count("\n"), SQUARE_HEAD.count("\n") + 2)

    def test_order_20_deep(self):
        for depth in (19, 20, 21):
            deep = [(1 if k == 1 else 2, 1, 2, 0, 0, 3, k + 1, 0) for k in range(1, depth + 1)]
            order = [(4, 1, 2, 3, 4, 0, depth + 2, 0), (5, 7, 0, 0, 0, 0, 0, 0)]
            text = self.there_and_back(binary(deep + order))
            self.assertEqual(("order 3-7-4" in text, "order 3-4, first 22" in text), (depth == 19, depth == 20))

    def test_longest_file(self):
        self.there_and_back(binary([(1, 1, 2, 0, 0, 3, 0, k + 1) for k in range(1, 4001)],
                                   [(k, k) for k in range(180)]))

    def test_more_records_than_indexes_reach(self):
        records = [(1, 1, 2, 0, 0, 3, 0, min(k + 1, 65535)) for k in range(1, 65538)]
        text = self.there_and_back(binary(records))
        self.assertTrue(text.endswith("strike 1-2, split at 3, next 65535\n"
                                      + "unused 1 1 2 0 0 3 0 65535\n" * 2))

    def test_180_and_more_points(self):
        for n in (180, 181, 300):
            self.there_and_back(binary(SQUARE_RECORDS, [(1, 2)] * n))
