"""The page's module against the library: random calls of every function, made natively and replayed in the page.

    REVOSTI_CALLS=200000 REVOSTI_SEED=7 python3 -m unittest tests/page/test_replay.py
"""

import os
import tempfile
from pathlib import Path

from tests.support import ROOT
from tests.support.page.calls import Calls
from tests.support.page.opened import PageTest

CALLS, SEED = (int(os.environ.get(name, usual)) for name, usual in (("REVOSTI_CALLS", 20000), ("REVOSTI_SEED", 1)))
LEAST = 3  # how often each refusal is met
SCRIPT = (ROOT / "tests/support/page/replay.js").read_text(encoding="utf-8")

TESTS = {1, 2, 5, 6, 20, 7}  # of a sheet, before its lines
LINES = {8, 9, 10, 11, 12, 13, 14, 15, 16, 23, 24}
SAVINGS = {1, 2, 5, 11}
MET = {  # the refusals of each function, as its comment has them
    "measure": {1, 2, 3, 4}, "read_tsplib": {19, 1, 2, 4, 5}, "tsplib_points": {19}, "fresh_marks": {1, 6}, "pack_marks": {1, 6},
    "unpack_marks": {1, 6}, "mark_sheet": TESTS | LINES, "ask_sheet": TESTS | LINES, "confirm": {1, 6, 21}, "withdraw": {1, 6, 21},
    "check_tour": {1, 2, 5, 6, 17}, "list_pairs": {1, 2, 5, 6, 11, 12, 18}, "mark_between": TESTS | LINES | {25},
    "list_between": {1, 2, 5, 25, 6, 11, 12, 18}, "exchange_saving": SAVINGS, "move_saving": SAVINGS, "crossing_saving": SAVINGS,
    "release": set(), "examiner_view": {22}, "candidate_view": {22}, "write_page": {1, 2, 5, 6, 26, 22},
    "read_page": {1, 2, 6, 26, 27}, "open_desks": {22}, "hand_in": {22, 28, 29} | TESTS, "next_desk": {22},
    "turn": {22} | TESTS | LINES, "tell_line": TESTS - {20} | LINES | {22},
}


class Replay(PageTest):
    """What the library answered, the page answers."""

    @classmethod
    def setUpClass(cls):
        super().setUpClass()
        cls.recording = Calls(SEED).record(CALLS)
        holder = tempfile.TemporaryDirectory()
        cls.addClassCleanup(holder.cleanup)
        cls.file = Path(holder.name) / "recorded"
        cls.recording.write(cls.file)

    def replay(self, file):
        """Replays a file of calls in the page, which the page is handed as a user would."""
        self.browser.run("document.body.append(Object.assign(document.createElement('input'), { type: 'file', id: 'recorded' }))")
        self.browser.type("#recorded", str(file))
        return self.browser.run(SCRIPT, self.recording.signatures())

    def test_every_refusal_is_met(self):
        for name, met in self.recording.met.items():
            with self.subTest(name):
                self.assertEqual(set(met) - {0}, MET[name.removeprefix("revosti_")])
                self.assertLessEqual(LEAST, min(met.values()))

    def test_the_page_answers_as_the_library_does(self):
        replayed = self.replay(self.file)
        self.assertEqual(replayed["wrong"], [])
        self.assertEqual(sorted(replayed["counts"]), sorted(self.recording.names))
        self.assertLessEqual(CALLS, min(replayed["counts"].values()))
        self.assertEqual(replayed["counts"], {name: sum(met.values()) for name, met in self.recording.met.items()})
