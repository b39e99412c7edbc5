"""Commands on packed sets in files: fresh, mark, ask, confirm, withdraw, and the conversions, over the library."""


from tests.support.command import NINE, SQUARE_RECORDS, Folder, Run, binary
from tests.support.packing import packed, some

SHEET = binary(SQUARE_RECORDS)
ORDER = "The pair is not the next standing one, or the chain ends with standing pairs left."


class Archive(Folder):
    def setUp(self):
        super().setUp()
        self.sheet, self.file = self.put("a.sheet", SHEET), self.folder / "a.marks"

    def call(self, name, *words, marks=None, data=b""):
        """A command over the file of marks, which holds these first if any are given."""
        if marks is not None:
            self.file.write_bytes(marks)
        return Run(name, *words, "--marks", self.file, data=data)

    def done(self, said, left, name, *words, marks=None):
        """The command says this and leaves these marks."""
        self.assertEqual(self.call(name, *words, marks=marks).all, (0, said + "\n", ""))
        self.assertEqual(self.file.read_bytes(), packed(left))

    def refused(self, told, left, name, *words, marks=None, data=b""):
        """The command tells a refusal so, and leaves these bytes."""
        run = self.call(name, *words, marks=marks, data=data)
        self.assertEqual((run.status, run.err), (1, ""))
        self.assertIn(told, run.text)
        self.assertEqual(self.file.read_bytes(), left)

    def bad(self, complaint, left, name, *words, marks=None, status=2):
        """The command complains so, and leaves these bytes."""
        self.assertEqual(self.call(name, *words, marks=marks).all, (status, "", f"revosti: {complaint}\n"))
        self.assertEqual(self.file.read_bytes(), left)


class HandIn(Archive):
    def test_a_set_from_fresh_to_confirmed(self):
        fresh, asked = "Struck: 0 edges. Pending: 0 edges. Open: 6 edges.", "Struck: 0 edges. Pending: 2 edges. Open: 4 edges."
        self.done(fresh, [1] * 6, "fresh", self.sheet)
        self.done(f"2 lines are accepted. {asked}", [1, 2, 1, 1, 2, 1], "ask", self.sheet)
        self.refused("Refused, number 20: Something is pending: confirm or withdraw it first.", packed([1, 2, 1, 1, 2, 1]), "mark",
                     self.sheet)
        self.done(fresh, [1] * 6, "withdraw")
        self.bad(f"{self.file}: Refused, number 21: Nothing is pending: there is nothing to confirm or withdraw.", packed([1] * 6),
                 "confirm", status=1)
        self.call("ask", self.sheet)
        self.done("Struck: 2 edges. Pending: 0 edges. Open: 4 edges.", [1, 0, 1, 1, 0, 1], "confirm")

    def test_marking(self):
        self.done("2 lines are accepted. Struck: 2 edges. Pending: 0 edges. Open: 4 edges.", [1, 0, 1, 1, 0, 1], "mark", self.sheet,
                  marks=packed([1] * 6))
        self.refused("Refused, number 12: The edge is struck already.\nIt was struck before this sheet.\nNo line is accepted.\n"
                     "Struck: 2 edges. Pending: 0 edges. Open: 4 edges.\n\nRecord 1 is at fault:\n>     1  strike 1-3, split at 2\n",
                     packed([1, 0, 1, 1, 0, 1]), "mark", self.sheet)

    def test_a_sheet_that_stops_keeps_its_lines(self):
        marks = packed([1, 1, 1, 1, 0, 1])
        for name, left in (("mark", [1, 0, 1, 1, 0, 1]), ("ask", [1, 2, 1, 1, 0, 1])):
            self.refused("1 line before it is accepted.", packed(left), name, self.sheet, marks=marks)

    def test_text_and_nine_points(self):
        self.call("fresh", NINE)
        self.assertEqual(self.call("ask", NINE).all, (0, "27 lines are accepted. Struck: 0 edges. Pending: 27 edges. Open: 9 edges.\n", ""))
        self.assertEqual(Run("convert", self.file, "--to", "text").text.splitlines()[-1], "total struck 0 pending 27 open 9")

    def test_asked_marks_are_drawn(self):
        self.call("ask", self.sheet, marks=packed([0, 1, 1, 1, 1, 1]))
        run = Run("draw", self.sheet, "--marks", self.file)
        for words in ("open: 3 edges", "pending: 2 edges", "struck: 1 edge<"):
            self.assertIn(words, run.text)

    def test_files_that_are_no_sheet(self):
        fresh = packed([1] * 6)
        seven, n = "Refused, number 7: The sheet is not 1 to 4,000 whole records", "Refused, number 1: n is outside 4 to 180."
        for data, words in ((SHEET[:-1], seven), (SHEET[:40], seven), (SHEET[:39], seven), (SHEET[:7], seven), (b"", seven),
                            (b"\1\0\0\0\3\0\0\0", n), (b"\1\0\0\0\xff\xff\xff\xff", n), (b"\6" + SHEET[1:], "Refused, number 3: ")):
            for name in ("mark", "ask"):
                with self.subTest((name, data)):
                    run = self.call(name, "--form", "binary", marks=fresh, data=data)
                    self.assertEqual((run.status, self.file.read_bytes()), (1, fresh))
                    self.assertIn(words, run.text + run.err)

    def test_pending_before_a_broken_sheet(self):
        pending = packed([2] * 6)
        self.assertIn("number 20", self.call("mark", "--form", "binary", marks=pending, data=SHEET[:-1]).text)

    def test_bad_sets(self):
        for name, words in (("mark", [self.sheet]), ("ask", [self.sheet]), ("confirm", []), ("withdraw", [])):
            for marks, complaint in ((packed([2] * 5 + [3]), "expected 0, 1 or 2 as the mark of 3-4, found 3"),
                                     (packed([2] * 6 + [2]), "expected 0 in the unused bits of the last byte, found 10 there")):
                self.bad(f"{self.file}: {complaint}", marks, name, *words, marks=marks)
            run = self.call(name, *words, marks=bytes(5))
            self.assertEqual((run.status, run.out), (2, b""))
            self.assertIn("found 5 bytes", run.err)

    def test_no_file(self):
        for name, words in (("mark", [self.sheet]), ("confirm", [])):
            self.assertEqual(self.call(name, *words).all, (3, "", f"revosti: {self.file}: No such file or directory\n"))


class Convert(Archive):
    def test_there_and_back(self):
        for n in (4, 5, 6, 7, 180):
            marks = some(n)
            run = Run("convert", "--to", "packed", data=bytes(marks))
            self.assertEqual((run.status, run.out, run.err), (0, packed(marks), ""))
            self.assertEqual(Run("convert", "--to", "bytes", data=run.out).out, bytes(marks))

    def test_files(self):
        self.file.write_bytes(bytes([1, 0, 1, 2, 1, 1]))
        out, back = self.folder / "b.marks", self.folder / "c.marks"
        self.assertEqual(Run("convert", self.file, "--to", "packed", "-o", out).all, (0, "", ""))
        self.assertEqual(Run("convert", out, "--to", "bytes", "-o", back).all, (0, "", ""))
        self.assertEqual((out.read_bytes(), back.read_bytes()), (b"\x91\x05", self.file.read_bytes()))

    def test_bad_sets(self):
        for form, data, words in (("packed", bytes(5), "expected a byte set of 4 to 180 points, found 5 bytes, the size of none"),
                                  ("packed", bytes([0, 1, 2, 3, 4, 5]), "expected 0, 1 or 2 as the mark of 2-3, found 3"),
                                  ("bytes", bytes(5), "expected a packed set of 4 to 180 points, found 5 bytes, the size of none"),
                                  ("bytes", packed([3] * 6), "expected 0, 1 or 2 as the mark of 1-2, found 3"),
                                  ("text", packed([3] * 6), "expected 0, 1 or 2 as the mark of 1-2, found 3"),
                                  ("bytes", b"\x55\x45", "expected 0 in the unused bits of the last byte, found 100 there")):
            self.assertEqual(Run("convert", "--to", form, data=data).all, (2, "", f"revosti: standard input: {words}\n"))
