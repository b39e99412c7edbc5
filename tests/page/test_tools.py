"""Tour, savings and slip on the page, eight desks, the foot, and no more than one file."""

import re

from tests.support import EXAMPLES
from tests.support.page.acting import Acting

REFUSED_14 = "refused by 14, record 2, 1 line accepted. The pair is not the next standing one, or the chain ends with standing pairs left."


class Tools(Acting):
    """The smaller panels, on the square."""

    def setUp(self):
        super().setUp()
        self.open("#open-any", EXAMPLES / "square.tsp")

    def tour(self, text):
        """Checks a tour that is typed in."""
        self.browser.click("#tab-tour")
        self.browser.clear("#tour-text")
        self.browser.type("#tour-text", text)
        self.browser.click("#check-tour")
        return self.text("#tour-words")

    def test_tours(self):
        self.write("strike 1-3, split at 2\nstrike 2-4, split at 1\n")
        self.browser.click("#mark")
        self.assertEqual(self.tour("1,2,3,4"), "The tour has length 40. All its edges are open.")
        self.assertEqual(self.drawn("tour"), ["1-2", "1-4", "2-3", "3-4"])
        self.assertEqual(self.tour("1 3 2 4"), "The tour has length 48. 2 edges of it are struck: 1-3 and 2-4.")
        self.assertEqual(self.drawn("broken"), ["1-3", "2-4"])
        self.assertIn("Refused, number 17: The tour is not n numbers, or not each point from 1 to n exactly once. Point 4 is missing.",
            self.tour("1,2,3"))
        self.assertEqual(self.drawn("tour"), [])
        self.assertIn('found "x"', self.tour("1,x"))

    def test_savings(self):
        self.browser.click("#tab-savings")
        for which, points, words in (("exchange", (1, 3, 2, 4), "Exchanging 1-3 and 2-4 saves 8."),
            ("exchange", (1, 2, 3, 4), "Exchanging 1-2 and 3-4 saves -8."),
                                     ("move", (1, 2, 4, 2, 3), "Moving 1 from between 2 and 4 to between 2 and 3 saves"),
                                     ("crossing", (1, 2, 3, 4, 1, 2, 1, 2), "The crossing of 1-2 with centres 3 and 4 saves"),
                                     ("exchange", (1, 9, 2, 4), "Refused, number 11: A point is outside 1 to n"),
                                         ("exchange", (1, "a", 2, 4), 'found "a"')):
            with self.subTest(which):
                for at, point in enumerate(points, 1):
                    self.browser.clear(f"#saving-{which} input:nth-of-type({at})")
                    self.browser.type(f"#saving-{which} input:nth-of-type({at})", str(point))
                self.browser.click(f"#saving-{which} button")
                self.assertIn(words, self.text("#saving-words"))
        for at, point in enumerate((1, 3, 2, 4), 1):
            self.browser.clear(f"#saving-exchange input:nth-of-type({at})")
            self.browser.type(f"#saving-exchange input:nth-of-type({at})", str(point))
        self.browser.click("#saving-exchange button")
        self.assertEqual(self.drawn("out"), ["1-3", "2-4"])
        self.assertEqual(self.drawn("put"), ["1-2", "1-4", "2-3", "3-4"])

    def test_the_slip_before_and_after_release(self):
        self.write("strike 1-3, split at 2\nstrike 1-2, split at 3\n")
        self.browser.click("#check")
        self.browser.click("#tab-slip")
        self.assertEqual(self.text("#slip-words"), "Slip 16777742 is not released.")
        self.assertEqual([self.text("#examiner-bytes"), self.text("#examiner-words")], ["14 0 2 0 1 0", REFUSED_14])
        self.assertEqual([self.text("#candidate-bytes"), self.text("#candidate-words")],
            ["255 0 0 0 1 0", "the sheet stopped, 1 line accepted."])
        self.browser.click("#release")
        self.assertEqual(self.text("#slip-words"), f"Slip {16777742 + 2**40} is released.")
        self.assertEqual([self.text("#candidate-bytes"), self.text("#candidate-words")], ["14 1 2 0 1 0", "the same."])
        self.browser.clear("#slip-number")
        self.browser.type("#slip-number", str(2**64))
        self.browser.click("#show-slip")
        self.assertIn("expected a slip from 0 to 18446744073709551615", self.text("#slip-words"))


class Desks(Acting):
    """Eight desks, on the square."""

    def setUp(self):
        super().setUp()
        self.open("#open-any", EXAMPLES / "square.tsp")
        self.browser.run("document.querySelector('#notices').replaceChildren()")

    def hand_in(self, desk, text):
        """Hands in a sheet at a desk, as a file."""
        self.browser.run("document.querySelector('#notices').replaceChildren()")
        self.browser.click(f"#desk-{desk} .actions button:nth-child(1)")
        self.browser.type("#chooser", str(self.file(f"{desk}.txt", text)))
        self.until("document.querySelector('#notices p')")
        return self.notices()[0]

    def test_turns(self):
        self.browser.click("#tab-desks")
        self.assertEqual(self.browser.run("return document.querySelectorAll('#desks .desk').length"), 8)
        two = "strike 1-3, split at 2\nstrike 2-4, split at 1\n"
        self.assertEqual(self.hand_in(1, two), "Desk 1 has handed in a sheet; its first line waits.")
        self.hand_in(3, "strike 1-2, split at 3\n")
        self.assertIn("Refused, number 29", self.hand_in(1, two))
        self.assertEqual(self.text("#desks-words"), "Desk 1 is served next; none was served yet.")
        self.browser.click("#turn")
        self.assertEqual(self.text("#desks-words"), "Desk 3 is served next; desk 1 was served last.")
        self.assertIn("Record 2 waits, which record 1 leads to; 1 line is accepted.", self.text("#desk-1"))
        self.browser.run("document.querySelector('#notices').replaceChildren()")
        self.browser.click("#all-turns")
        turns = self.browser.run("return [...document.querySelectorAll('#turns li')].map(li => li.textContent)")
        self.assertEqual([turn.partition("\n")[0] for turn in turns[::-1]], [
            "Desk 1: 1 line accepted so far, and a line is left.",
            "Desk 3: Refused, number 14: The pair is not the next standing one, or the chain ends with standing pairs left.",
            "Desk 1: the sheet is accepted, 2 lines. Struck: 2 edges. Pending: 0 edges. Open: 4 edges."])
        self.assertIn("The pair 1-4 is due, and 1 more after it: 2-4. Its split has no cases.", turns[1])
        self.assertIn("255 0 0 0 0 0", self.text("#desk-3"))
        self.browser.run("document.querySelector('#notices').replaceChildren()")
        self.browser.click("#desk-3 .slip button")
        self.assertIn("14 1 1 0 0 0 the same.", self.text("#desk-3"))
        self.assertEqual(self.counts_of_board(), [6, 0, 0])

    def counts_of_board(self):
        """The marks of the one sheet's view, which desks leave alone."""
        self.browser.click("#tab-one")
        return self.counts()

    def test_a_sheet_of_another_board_is_not_taken(self):
        self.browser.click("#tab-desks")
        self.assertEqual(self.hand_in(2, "rule 1\npoints 4\n1 0 0\n2 9 0\n3 10 10\n4 0 10\nstrike 1-3, split at 2\n"),
            "2.txt: the sheet is of another board")
        self.assertIn("line 1, column 8", self.hand_in(2, "strike x\n"))
        self.assertIn("Refused, number 7", self.hand_in(2, "# no record\n"))
        self.assertIn("No sheet.", self.text("#desk-2"))

    def test_the_editors_sheet_and_another_board(self):
        self.write("strike 1-3, split at 2\n")
        self.browser.run("document.querySelector('#notices').replaceChildren()")
        self.browser.click("#tab-desks")
        self.browser.click("#desk-8 .actions button:nth-child(2)")
        self.assertIn("served next", self.text("#desk-8"))
        self.open("#open-any", EXAMPLES / "square_weights.tsp")
        self.until("document.querySelector('#board-words').innerText.includes('by weights')")
        self.assertIn("served next", self.text("#desk-8"))
        self.open("#open-any", EXAMPLES / "board-180.sheet")
        self.answer("no")
        self.assertIn("4 holes", self.text("#board-words"))
        self.browser.click("#open-desks")
        self.answer("yes")
        self.assertEqual(self.text("#desks-words"), "No desk has a line left; none was served yet.")


class Whole(Acting):
    """The page as one file."""

    def test_the_foot(self):
        self.assertRegex(self.text("#commit"), r"^[0-9a-f]{40}(, with changes)?$")
        self.assertRegex(self.text("#kit"), "^rattle-kit")
        self.assertRegex(self.text("#checker"), "^logic=proved ")

    def test_every_control_has_a_name(self):
        bare = self.browser.run("return [...document.querySelectorAll('button, input, select, textarea, summary, [role=tab]')]"
                                ".filter(e => !(e.textContent || e.getAttribute('aria-label') || e.labels?.length)).map(e => e.outerHTML)")
        self.assertEqual(bare, [])

    def test_tabs_by_keyboard(self):
        self.browser.run("document.querySelector('#tab-sheet').focus()")
        self.browser.type("#tab-sheet", "\ue014")
        self.assertFalse(self.browser.run("return document.querySelector('#panel-board').hidden"))
        self.assertEqual(self.browser.run("return document.activeElement.id"), "tab-board")

    def test_the_words_have_contrast(self):
        """Words and the colours of edges against the paper, in light and in dark."""
        self.addCleanup(self.prefer)
        for scheme in ("light", "dark"):
            self.prefer({"name": "prefers-color-scheme", "value": scheme})
            colours = self.browser.run("const s = getComputedStyle(document.documentElement);"
                                       "return Object.fromEntries(given[0].map(name => [name, s.getPropertyValue(`--${name}`).trim()]))",
                                       ["card", "ink", "quiet", "open", "struck", "pending", "tour", "due", "named", "broken"])
            for name, colour in colours.items():
                if name != "card":
                    self.assertLess(4.5, contrast(colour, colours["card"]), f"{name} in {scheme}")

    def prefer(self, *features):
        """What the browser takes its user to prefer."""
        self.browser.send("POST", "/goog/cdp/execute", {"cmd": "Emulation.setEmulatedMedia", "params": {"features": features}})


def contrast(one, other):
    """WCAG's contrast of two colours."""
    def light(colour):
        parts = [int(part, 16) / 255 for part in re.findall("..", colour[1:])]
        linear = [part / 12.92 if part <= 0.04045 else ((part + 0.055) / 1.055) ** 2.4 for part in parts]
        return 0.2126 * linear[0] + 0.7152 * linear[1] + 0.0722 * linear[2]
    high, low = sorted((light(one), light(other)), reverse=True)
    return (high + 0.05) / (low + 0.05)
