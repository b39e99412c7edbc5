"""revosti desks: a practical in a folder, each desk against its sheet marked alone; words, JSON, refusals, bad use; files
that are changed meanwhile, a kill at any step of a turn, and several commands at once."""

import json
import random
import shutil
from unittest import mock

from tests.support import EXAMPLES, ROOT
from tests.support.command import SQUARE_HEAD, SQUARE_RECORDS, Folder, Run, binary, start
from tests.support.packing import packed

import revosti
from revosti_command import hall as halls

SQUARE, SHEET = EXAMPLES / "square.tsp", EXAMPLES / "square.txt"
TABLE = revosti.measure(4, 1, [(0, 0), (10, 0), (10, 10), (0, 10)])
FRESH, STRUCK = packed([1] * 6), packed([1, 0, 1, 1, 0, 1])
LINES, WRONG = "strike 1-3, split at 2\nstrike 2-4, split at 1\n", "strike 1-2, split at 3\n"
COUNTS = "Struck: {} edges. Pending: 0 edges. Open: {} edges."
SHEETS = [SQUARE_RECORDS, SQUARE_RECORDS[:1], [(1, 1, 2, 0, 0, 3, 0, 0)], [(1, 1, 3, 0, 0, 2, 0, 1)], [(1, 2, 4, 0, 0, 1, 0, 2)],
          [(1, 1, 3, 0, 0, 2, 0, 2)] * 2, [(2, 1, 3, 0, 0, 2, 0, 0)], [(1, 4, 2, 0, 0, 1, 0, 3), (0,) * 8, (1, 1, 5, 0, 0, 2, 0, 0)]]
PAGE = (ROOT / "docs/FORMATS.md").read_text(encoding="utf-8")


class Hall(Folder):
    """A hall of the square."""

    def setUp(self):
        super().setUp()
        self.hall = self.folder / "hall"
        self.assertEqual(self.desks("open", SQUARE).all, (0, "Eight desks are open, for a board of 4 points.\n", ""))

    def desks(self, *words, **data):
        """One call."""
        return Run("desks", self.hall, *words, **data)

    def hand_in(self, desk, text):
        """A sheet handed in at a desk, which takes it."""
        self.assertEqual(self.desks("hand-in", desk, "-", data=text if isinstance(text, bytes) else text.encode()).all,
                         (0, f"Desk {desk} has handed in a sheet; its first line waits.\n", ""))

    def marks(self, desk):
        """The set of a desk."""
        return (self.hall / str(desk) / "marks").read_bytes()

    def files(self):
        """All files and what they hold."""
        return {str(path.relative_to(self.hall)): path.read_bytes() for path in sorted(self.hall.rglob("*")) if path.is_file()}


class Practical(Hall):
    def test_two_desks(self):
        self.hand_in(1, LINES)
        self.hand_in(3, WRONG)
        self.assertEqual(self.desks("turn").all, (0, "Desk 1: 1 line accepted so far, and a line is left.\n", ""))
        run = self.desks("turn")
        self.assertEqual((run.status, run.err), (1, ""))
        self.assertTrue(run.text.startswith("Desk 3: Refused, number 14: "), run.text)
        self.assertIn("The pair 1-4 is due, and 1 more after it: 2-4.", run.text)
        self.assertIn("Record 1 is at fault, line 1 of the text:\n>     1  strike 1-2, split at 3\n", run.text)
        self.assertEqual(self.desks("all").all, (0, f"Desk 1: the sheet is accepted, 2 lines. {COUNTS.format(2, 4)}\n"
                                                    "1 turn: no desk has a line left.\n", ""))
        self.assertEqual(self.desks("turn").all, (0, "No desk has a line left.\n", ""))
        self.assertEqual((self.marks(1), self.marks(3)), (STRUCK, FRESH))
        self.assertEqual([(self.hall / desk / "slip").read_text() for desk in "13"], [f"{2 << 24}\n", f"{14 + 256}\n"])

    def test_show(self):
        self.hand_in(1, LINES)
        self.hand_in(2, WRONG)
        self.desks("turn")
        self.desks("turn")
        shown = self.desks("show").text.splitlines()
        self.assertEqual(shown[:4], ["Desk 1 is served next; desk 2 was served last.",
                                     "Desk 1: record 2 waits, which record 1 leads to; 1 line is accepted. "
                                     "Struck: 1 edge. Pending: 0 edges. Open: 5 edges.",
                                     f"Desk 2: its sheet has ended, slip 270. {COUNTS.format(0, 6)}",
                                     f"Desk 3: no sheet. {COUNTS.format(0, 6)}"])
        self.assertEqual(len(shown), 9)

    def test_numbers_that_nobody_wrote(self):
        (self.hall / "desks").write_bytes(bytes((9, 1, 5, 0, 2, 0, 9, 0)) + bytes(42))
        self.assertEqual(self.desks("show").text.splitlines()[:2], [
            "No desk has a line left; desk 265 was served last.",
            f"Desk 1: no line left, though its numbers are 5 2 9. {COUNTS.format(0, 6)}"])

    def test_page(self):
        self.hand_in(1, LINES)
        self.hand_in(3, WRONG)
        self.assertTrue(f"\n```\n{self.desks('all').text}```\n" in PAGE)

    def test_bytes_of_the_state(self):
        self.hand_in(3, (EXAMPLES / "square.bin").read_bytes())
        self.desks("turn")
        state = (self.hall / "desks").read_bytes()
        self.assertEqual((len(state), state[0], {at for at, byte in enumerate(state) if byte}), (50, 3, {0, 14, 16, 18}))
        self.assertTrue(f"byte 0 is 3, and bytes 14 to 19 are {' '.join(map(str, state[14:20]))}." in " ".join(PAGE.split()))

    def test_json(self):
        self.hand_in(1, LINES)
        self.hand_in(3, WRONG)
        found = json.loads(self.desks("all", "--json").text)
        self.assertEqual({key: found[key] for key in ("refusal", "next", "last")}, {"refusal": 14, "next": 0, "last": 1})
        self.assertEqual([(turn["desk"], turn["line_left"], turn["refusal"], turn["record"], turn["lines"]) for turn in found["turns"]],
                         [(1, True, 0, 0, 1), (3, False, 14, 1, 0), (1, False, 0, 0, 2)])
        self.assertEqual(found["turns"][1]["due"], [[1, 4], [2, 4]])
        self.assertEqual(found["desks"][0], {"desk": 1, "line_left": False, "index": 0, "owner": 0, "lines": 0, "slip": 2 << 24,
                                             "struck": 2, "pending": 0, "open": 4})
        self.assertEqual(json.loads(self.desks("show", "--json").text), found | {"refusal": 0, "turns": []})

    def test_forms_of_a_sheet(self):
        for data in (LINES.encode(), (SQUARE_HEAD + LINES).encode(), binary(SQUARE_RECORDS), (EXAMPLES / "square.bin").read_bytes()):
            self.desks("open", SQUARE, "--force")
            self.hand_in(8, data)
            self.assertEqual(self.desks("all").status, 0)
            self.assertEqual(self.marks(8), STRUCK)

    def test_a_board_in_a_sheet(self):
        self.desks("open", EXAMPLES / "square.bin", "--force")
        self.hand_in(8, LINES)
        self.assertEqual((self.desks("all").status, self.marks(8)), (0, STRUCK))

    def test_out(self):
        self.hand_in(1, LINES)
        self.assertEqual(self.desks("all", "-o", self.folder / "told").all, (0, "", ""))
        self.assertEqual((self.folder / "told").read_text().splitlines()[-1], "2 turns: no desk has a line left.")


class MarkedAlone(Hall):
    def test_random_halls(self):
        r, ends = random.Random(33), set()
        for _ in range(5):
            self.desks("open", SQUARE, "--force")
            handed = {}
            for _ in range(30):
                if r.random() < 0.5:
                    desk, sheet = r.randint(1, 8), r.choice(SHEETS)
                    busy = json.loads(self.desks("show", "--json").text)["desks"][desk - 1]["line_left"]
                    before = self.marks(desk)
                    self.assertEqual(self.desks("hand-in", desk, "-", data=binary(sheet)).status, int(busy))
                    if not busy:
                        handed[desk] = before, sheet
                    continue
                for turn in json.loads(self.desks("turn", "--json").text)["turns"]:
                    if not turn["line_left"]:
                        marks, sheet = bytearray(handed[turn["desk"]][0]), handed[turn["desk"]][1]
                        self.assertEqual(turn["slip"], revosti.new_slip(4, TABLE, marks, sheet))
                        self.assertEqual(self.marks(turn["desk"]), bytes(marks))
                        ends.add(turn["refusal"])
        self.assertLessEqual({0, 9, 12, 14}, ends)


class Refused(Hall):
    def refused(self, number, *words, data=b""):
        """A call that is refused, and changes nothing."""
        before = self.files()
        run = self.desks(*words, data=data)
        self.assertEqual((run.status, run.text), (1, ""))
        self.assertIn(f": Refused, number {number}: ", run.err)
        self.assertEqual(self.files(), before)
        told = json.loads(self.desks(*words, "--json", data=data).text)
        self.assertEqual((told["refusal"], told["words"]), (number, revosti.meaning(number)))

    def test_handing_in(self):
        for desk in (0, 9, 2**32 - 1):
            self.refused(28, "hand-in", desk, SHEET)
        self.refused(7, "hand-in", 1, "-", data=b"")
        self.refused(7, "hand-in", 1, "-", data=binary(SQUARE_RECORDS, tail=b"\1"))
        self.refused(3, "hand-in", 1, "-", data=binary(SQUARE_RECORDS, rule=6))
        self.hand_in(1, LINES)
        self.refused(29, "hand-in", 1, SHEET)
        self.refused(29, "hand-in", 1, "-", data=b"")
        (self.hall / "2/marks").write_bytes(packed([1, 2, 1, 1, 1, 1]))
        self.refused(20, "hand-in", 2, SHEET)
        (self.hall / "2/marks").write_bytes(b"")
        self.refused(6, "hand-in", 2, SHEET)

    def test_a_short_state(self):
        (self.hall / "desks").write_bytes(bytes(49))
        for words in (("show",), ("turn",), ("all",), ("hand-in", 1, SHEET)):
            self.refused(22, *words)

    def test_meanwhile(self):
        for name, data, number, record in (("sheet", WRONG, 8, 1), ("sheet", b"", 7, 0), ("marks", packed([1, 0, 1, 1, 2, 1]), 20, 0),
                                           ("marks", b"\xff\xff", 6, 0), ("marks", packed([1, 0, 1, 1, 0, 1]), 12, 2)):
            self.desks("open", SQUARE, "--force")
            self.hand_in(4, LINES)
            self.desks("turn")
            (self.hall / "4" / name).write_bytes(data.encode() if isinstance(data, str) else data)
            turn = json.loads(self.desks("turn", "--json").text)["turns"][0]
            self.assertEqual((turn["refusal"], turn["record"], turn["lines"], turn["line_left"]), (number, record, 1, False))
            self.assertEqual(self.desks("turn").text, "No desk has a line left.\n")

    def test_any_state(self):
        r = random.Random(34)
        for _ in range(40):
            self.desks("open", SQUARE, "--force")
            for desk in range(1, 9):
                self.hand_in(desk, binary(r.choice(SHEETS)))
            (self.hall / "desks").write_bytes(r.randbytes(50 + r.randrange(9)))
            self.assertIn(self.desks("turn").status, (0, 1))
            for desk in range(1, 9):
                self.assertTrue(all(revosti.mark_of(4, self.marks(desk), *side) for side in ((1, 2), (2, 3), (3, 4), (1, 4))))


class BadUse(Hall):
    def test_words(self):
        for words, said in ((("open",), "open takes BOARD, found 0 words"), (("turn", 1), "turn takes no word, found 1 word"),
                            (("hand-in", 1), "hand-in takes DESK and SHEET, found 1 word"),
                            (("hand-in", "x", SHEET), 'expected a desk, found "x"'),
                            (("hand-in", 2**32, SHEET), f"expected a desk from 0 to {2**32 - 1}, found {2**32}"),
                            (("open", "-"), 'expected the name of a file, found "-"')):
            run = self.desks(*words)
            self.assertEqual((run.status, run.text, run.err.splitlines()[-1]), (2, "", f"revosti desks: error: argument WORD: {said}"))

    def test_files(self):
        other = self.put("other.sheet", binary(SQUARE_RECORDS, [(0, 0), (10, 0), (10, 11), (0, 10)]))
        for words, status, said in ((("open", SQUARE), 2, f"{self.hall}/desks: there is such a file already; --force replaces it"),
                                    (("hand-in", 1, other), 2, f"{other}: the sheet is of another board than {self.hall}"),
                                    (("hand-in", 1, "/nowhere"), 3, "/nowhere: No such file or directory"),
                                    (("show", "-o", self.hall / "told"), 2,
                                     f"{self.hall}/told: the answer would stand among the desks' own files"),
                                    (("show", "-o", self.hall / "1/marks"), 2, f"{self.hall}/1/marks: this is a set of marks, with its "
                                                                              "fingerprint beside it, and is not overwritten")):
            before = self.files()
            self.assertEqual(self.desks(*words).all, (status, "", f"revosti: {said}\n"))
            self.assertEqual(self.files(), before)
        self.assertEqual(Run("desks", self.folder, "turn").all,
                         (2, "", f'revosti: {self.folder}: no desks are open here; "revosti desks {self.folder} open BOARD" opens them\n'))

    def test_opening_loses_nothing(self):
        for name in ("board", "1/sheet", "8/marks", "3/slip"):
            place = self.folder / "mine" / name
            place.parent.mkdir(parents=True, exist_ok=True)
            place.write_bytes(b"mine")
            self.assertEqual(Run("desks", self.folder / "mine", "open", SQUARE).all,
                             (2, "", f"revosti: {place}: there is such a file already; --force replaces it\n"))
            self.assertEqual([path for path in (self.folder / "mine").rglob("*") if path.is_file()], [place])
            place.unlink()

    def test_a_set_of_another_board(self):
        self.hand_in(1, LINES)
        Run("fresh", "--force", self.put("b.sheet", binary((), [(0, 0), (10, 0), (10, 11), (0, 10)])), "--marks", self.hall / "1/marks")
        before = self.files()
        run = self.desks("turn")
        self.assertEqual((run.status, run.text), (2, ""))
        self.assertIn("the set is of another board", run.err)
        self.assertEqual(self.files(), before)

    def test_a_sheet_that_is_gone(self):
        self.hand_in(1, LINES)
        (self.hall / "1/sheet").unlink()
        self.assertEqual(self.desks("turn").all, (3, "", f"revosti: {self.hall}/1/sheet: No such file or directory\n"))


class Stop(Exception):
    """Stands for a kill."""


class Killed(Hall):
    """A kill at any step of a turn leaves the turn whole, or none of it."""

    def turns_told(self):
        """What all turns from here on come to: the files left."""
        self.assertIn(self.desks("all").status, (0, 1))
        return self.files()

    def test_every_step(self):
        self.hand_in(1, LINES)
        self.hand_in(2, WRONG)
        copy, seen = self.folder / "copy", set()
        shutil.copytree(self.hall, copy)
        wanted = self.turns_told()
        for first in range(12):
            shutil.rmtree(self.hall)
            shutil.copytree(copy, self.hall)
            steps, real = [0], halls.replace

            def broken(*words):
                steps[0] += 1
                if steps[0] > first:
                    raise Stop
                return real(*words)

            with mock.patch.object(halls, "replace", broken):
                try:
                    self.desks("all")
                except Stop:
                    seen.add((self.hall / "turn").exists())
            self.assertEqual(self.turns_told(), wanted, first)
            self.assertFalse((self.hall / "turn").exists())
        self.assertEqual(seen, {True, False})

    def test_what_is_no_turn(self):
        for data in (b"", b"{}", b"[]", b'{"desk": 9, "found": "", "left": "", "state": "00"}',
                     b'{"desk": 1, "found": "x", "left": "", "state": ""}'):
            before = self.files()
            file = self.hall / "turn"
            file.write_bytes(data)
            for words in (("show",), ("turn",), ("hand-in", 1, SHEET)):
                self.assertEqual(self.desks(*words).all, (2, "", f"revosti: {file}: expected a turn that was being written; "
                                                                 "without this file, it was not taken\n"))
            file.unlink()
            self.assertEqual(self.files(), before)

    def test_marks_that_were_changed_since_stay(self):
        self.hand_in(1, LINES)
        with mock.patch.object(halls, "finish", side_effect=Stop), self.assertRaises(Stop):
            self.desks("turn")
        (self.hall / "1/marks").write_bytes(packed([1, 1, 1, 1, 0, 1]))
        self.assertIn("Desk 1: record 2 waits", self.desks("show").text)
        self.assertEqual(self.marks(1), packed([1, 1, 1, 1, 0, 1]))


class Together(Hall):
    """Several commands at once: each turn is taken once."""

    def test_all_at_once(self):
        for desk in range(1, 9):
            self.hand_in(desk, LINES)
        runs = [start("desks", self.hall, "all", "--json") for _ in range(3)]
        turns = []
        for run in runs:
            out, said = run.communicate()
            self.assertEqual(run.returncode, 0, said)
            turns += json.loads(out)["turns"]
        self.assertEqual(sorted((turn["desk"], turn["lines"]) for turn in turns),
                         [(desk, lines) for desk in range(1, 9) for lines in (1, 2)])
        self.assertEqual([self.marks(desk) for desk in range(1, 9)], [STRUCK] * 8)

    def test_locked_to_its_end(self):
        """Whoever comes once the state is replaced waits until the turn is done."""
        self.hand_in(1, LINES)
        write, others = halls.replace, []

        def replaced(file, data):
            write(file, data)
            if file == self.hall / "desks":
                others.append(start("desks", self.hall, "turn"))
                self.assertEqual(others[0].stderr.readline().decode(),
                                 f"revosti: {self.hall}: another command changes it; waiting\n")

        with mock.patch.object(halls, "replace", replaced):
            self.assertEqual(self.desks("turn").all, (0, "Desk 1: 1 line accepted so far, and a line is left.\n", ""))
        out, said = others[0].communicate()
        self.assertEqual((others[0].returncode, said), (0, b""))
        self.assertIn(b"Desk 1: the sheet is accepted, 2 lines.", out)
        self.assertEqual(self.marks(1), STRUCK)
        self.assertFalse((self.hall / "turn").exists())
