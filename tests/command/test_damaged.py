"""6,000 damaged files, of every kind and for every command that takes the kind: a message, and never a traceback."""

import random
from unittest import mock

from tests.support import EXAMPLES
from tests.support.command import NINE, Folder, Run
from tests.support.packing import packed

from revosti_command.parts import join, split
from revosti_command.read import pack
from revosti_command.write import unpack

COUNT = 6_000
SQUARE, WEIGHTS, WIDE, LINES = (EXAMPLES / name for name in ("square.tsp", "square_weights.tsp", "wide_weights.tsp", "square.txt"))
TOUR = "NAME : nine\nTYPE : TOUR\nDIMENSION : 9\nTOUR_SECTION\n1 5 4\n7 6 2\n3 8 9\n-1\nEOF\n"
REALS = ("NAME: r\nTYPE: TSP\nDIMENSION: 5\nEDGE_WEIGHT_TYPE: EUC_2D\nNODE_COORD_SECTION\n"
         "1 1.5 -2.25\n2 1.1e+03 5\n3 2 2\n4 3 3.001\n5 7 7\nEOF\n")
ODD = ["9" * 5000, "-1", "\u00b2", "1e309", "0x10", "\0", "\ufffe", "4294967296", "\n", "65536", "EOF", ":", "nan", "  ", "\r\n", "-1\n",
       "points"]


def damaged(data, r):
    """The bytes with one to three damages."""
    data = bytearray(data)
    for _ in range(r.randint(1, 3)):
        at, end = sorted((r.randrange(len(data) + 1), r.randrange(len(data) + 1)))
        match r.randrange(7):
            case 0:
                del data[at:]
            case 1:
                del data[at:min(end, at + 9)]
            case 2:
                data[at:at] = r.randbytes(r.randint(1, 9))
            case 3:
                data[at:at] = data[at:end]
            case 4 if data:
                data[at % len(data)] ^= 1 << r.randrange(8)
            case 5 if data:
                data[at % len(data)] = r.choice(b"0123456789 \n:,-#.eE\xff\0")
            case _:
                data[at:at] = r.choice(ODD).encode("utf-8")
    return bytes(data)


class Damaged(Folder):
    def setUp(self):
        super().setUp()
        self.text, self.sheet = NINE.read_bytes(), join(pack(NINE.read_text()).parts)
        self.order = (EXAMPLES / "stretch.bin").read_bytes()
        self.marks, self.small = self.put("a.marks", packed([1] * 36)), self.put("b.marks", packed([1, 0, 2, 1, 1, 1]))
        Run("fresh", SQUARE, "--marks", self.folder / "c.marks")
        self.print = (self.folder / "c.marks.fingerprint").read_bytes()
        self.wall = Run("pages", SQUARE, "--marks", self.small).out
        self.file = self.folder / "damaged"
        self.kinds = self.of_sheets() + self.of_boards() + self.of_others()

    def of_sheets(self):
        """Sheets in both forms, and beside a board."""
        file, marks = self.file, self.marks
        beside = [(name, "--board", SQUARE, file) for name in ("explain", "slip", "draw", "pack")]
        whole = [("explain", file), ("slip", file), ("explain", file, "--json"), ("mark", file, "--marks", marks),
                 ("ask", file, "--marks", marks),
                 ("draw", file), ("draw", file, "--record", 22), ("pairs", file, "--record", 22), ("pairs", file, 1, 2, 3),
                 ("unpack", file),
                 ("saving", file, "exchange", 1, 2, 3, 4), ("tour", file, "1,2,3,4,5,6,7,8,9"), ("explain", file, "--high", NINE)]
        orders = [("explain", file), ("explain", file, "--json"), ("draw", file, "--record", 3), ("draw", file, "--record", 4),
                  ("pairs", file, "--record", 3), ("slip", file), ("unpack", file, "-n")]
        order = unpack(split(self.order)).encode()
        return [(self.text, whole), (self.text, [("pack", file)]), (self.sheet, whole), (self.sheet, [("unpack", file, "--tsplib")]),
                (LINES.read_bytes(), beside), (self.order, orders), (order, [*orders[:-1], ("pack", file)])]

    def of_boards(self):
        """TSPLIB texts."""
        file = self.folder / "damaged.tsp"
        alone = [("pages", file), ("pairs", file, 1, 3, 2), ("edges", file), ("draw", file), ("saving", file, "move", 3, 1, 4, 1, 2),
                 ("tour", file, "1,2,3,4"), ("explain", "--board", file, LINES), ("pages", file, "--marks", self.small),
                 ("mark", "--board", SQUARE, "--high", file, LINES, "--marks", self.small), ("pairs", SQUARE, 1, 3, 2, "--high", file),
                 ("read-pages", self.folder / "wall", "--board", file)]
        self.put("wall", self.wall)
        return [(SQUARE.read_bytes(), alone), (WEIGHTS.read_bytes(), alone),
                (REALS.encode(), [("board", file), ("board", file, "--points", 4)])]

    def of_others(self):
        """Sets, their fingerprints, lists and tours."""
        file = self.file
        sets = [("convert", file, "--to", form) for form in ("packed", "bytes", "text")]
        sets += [("pages", SQUARE, "--marks", file), ("confirm", "--marks", file), ("withdraw", "--marks", file),
                 ("tour", SQUARE, "1,2,3,4", "--marks", file)]
        return [(packed([1, 0, 2, 1, 1, 1]), sets), (self.print, [("pages", SQUARE, "--marks", self.folder / "c.marks")]),
                (self.wall, [("read-pages", file), ("read-pages", file, "--points", 4), ("read-pages", file, "--board", SQUARE)]),
                (TOUR.encode(), [("tour", NINE, file), ("draw", NINE, "--tour", file)])]

    def place(self, command):
        """The file that a command reads the damage from."""
        return next((file for file in (self.folder / "damaged.tsp", self.file) if file in command), self.folder / "c.marks.fingerprint")

    def check(self, data, command):
        """A run on damaged bytes: a status that is known, and a message where nothing is answered."""
        self.place(command).write_bytes(data)
        run = Run(*command)
        self.assertIn(run.status, (0, 1, 2, 3), command)
        self.assertFalse("Traceback" in run.err, (command, data))
        if run.status:
            self.assertTrue(run.err.startswith(("revosti: ", "usage: ")) or run.status == 1 and run.out, (command, data, run.err))
        return run.status

    def test_damaged(self):
        r, seen = random.Random(36), {}
        with mock.patch("os.fsync"):
            for _ in range(COUNT):
                data, commands = r.choice(self.kinds)
                status = self.check(damaged(data, r), r.choice(commands))
                seen[status] = seen.get(status, 0) + 1
        self.assertEqual(sum(seen.values()), COUNT)
        self.assertLessEqual({0, 1, 2}, set(seen))
        self.assertNotIn(3, seen)
