"""The sheet on the page: its text, its verdict, the record at the caret, marks that are pending, struck and fresh."""


from tests.support import EXAMPLES
from tests.support.page.acting import SIX, Acting

from revosti import fresh_marks, measure, tell_line

FAULT = "strike 2-3, split at 6\n  pair 2-5: split at 1\n  pair 3-5: split at 1\n"


class Verdict(Acting):
    """Check, ask, mark, confirm, withdraw, fresh marks."""

    def test_check_changes_nothing(self):
        self.browser.click("#check")
        self.assertIn("Verdict 0: every line of the sheet is accepted, 1 line.", self.text("#verdict"))
        self.assertIn("Edge 2-3 is struck: no shortest tour goes straight between 2 and 3 (record 1).", self.text("#verdict"))
        self.assertEqual(self.counts(), [15, 0, 0])

    def test_ask_then_confirm(self):
        self.browser.click("#ask")
        self.assertEqual(self.counts(), [14, 1, 0])
        self.browser.click("#ask")
        self.assertIn("Refused, number 20: Something is pending: confirm or withdraw it first.", self.text("#verdict"))
        self.browser.click("#withdraw")
        self.browser.click("#ask")
        self.browser.click("#confirm")
        self.assertEqual(self.counts(), [14, 0, 1])
        self.assertIn("Then confirmed. Struck: 1 edge. Pending: 0 edges. Open: 14 edges.", self.text("#verdict"))
        self.browser.click("#confirm")
        self.assertIn("Refused, number 21: Nothing is pending: there is nothing to confirm or withdraw.", self.notices())

    def test_ask_then_withdraw(self):
        self.browser.click("#ask")
        self.browser.click("#withdraw")
        self.assertEqual(self.counts(), [15, 0, 0])

    def test_mark_then_fresh(self):
        self.browser.click("#mark")
        self.assertEqual(self.counts(), [14, 0, 1])
        self.browser.click("#mark")
        self.assertIn("Refused, number 12: The edge is struck already.\nIt was struck before this sheet.",
            self.text("#verdict").replace("\n\n", "\n"))
        self.browser.click("#fresh")
        self.answer("no")
        self.assertEqual(self.counts(), [14, 0, 1])
        self.browser.click("#fresh")
        self.answer("yes")
        self.assertEqual(self.counts(), [15, 0, 0])
        self.assertEqual(self.text("#verdict"), "")

    def test_a_refusal_is_explained(self):
        self.write(FAULT)
        self.browser.click("#check")
        words = self.text("#verdict")
        self.assertIn("Refused, number 14: The pair is not the next standing one, or the chain ends with standing pairs left.", words)
        self.assertIn("The pair 2-4 is due. Its split has no cases.", words)
        self.assertIn("Record 3 is at fault, line 3 of the text:", words)
        self.assertEqual(self.browser.run("return document.querySelector('#editor .band.fault').dataset.line"), "3")
        self.assertEqual(self.drawn("k"), ["2-3", "3-6", "5-6"])
        self.assertEqual(self.drawn("due"), ["1-2", "1-4"])

    def test_no_split_point_is_proposed(self):
        self.write("strike 1-2, split at 3\n")
        self.browser.click("#check")
        self.assertNotRegex(self.text("#view-one"), r"split at (?!3\b)\d")


class Text(Acting):
    """The editor."""

    def test_a_fault_of_the_text_is_marked_as_it_is_typed(self):
        self.write(SIX.replace("pair 3-5:", "pair 3-5;"))
        self.assertEqual(self.text("#text-fault"), 'Line 3, column 11: expected ":", found ";"')
        self.assertEqual(self.browser.run("return document.querySelector('#editor .band.fault').dataset.line"), "3")
        self.browser.click("#ask")
        self.assertEqual(self.counts(), [15, 0, 0])
        self.write(SIX)
        self.assertTrue(self.browser.run("return document.querySelector('#text-fault').hidden"))
        self.assertFalse(self.browser.run("return document.querySelector('#editor .band.fault')"))

    def test_line_numbers(self):
        self.write("# one\n" * 11)
        self.assertEqual(self.text("#editor .numbers").split(), [str(i) for i in range(1, 13)])

    def test_undo_is_the_browsers_own(self):
        self.write("strike 1-2, split at 3\n")
        self.browser.run("document.execCommand('undo')")
        self.assertEqual(self.value("#editor textarea"), SIX)
        self.browser.run("const s = document.querySelector('#examples'); s.value = 'square'; s.dispatchEvent(new Event('change'))")
        self.answer("yes")
        self.until("document.querySelector('#editor textarea').value.includes('strike 1-3')")
        self.browser.run("document.querySelector('#editor textarea').focus(); document.execCommand('undo')")
        self.assertEqual(self.value("#editor textarea"), SIX)

    def test_a_text_with_a_board_in_front_fills_both_boxes(self):
        self.write("rule ATT\npoints 4\n 1 0 0\n 2 10 0\n 3 10 10\n 4 0 10\nstrike 1-3, split at 2\n")
        self.until("document.querySelector('#editor textarea').value === 'strike 1-3, split at 2\\n'")
        self.assertIn("4 holes, 6 edges, rule 3, ATT", self.text("#board-words"))
        self.assertIn("rule ATT", self.value("#board-editor textarea"))

    def test_a_board_in_front_that_is_not_wanted_leaves_a_fault(self):
        self.browser.click("#mark")
        self.write("rule 1\npoints 4\n 1 0 0\n 2 10 0\n 3 10 10\n 4 0 10\nstrike 1-3, split at 2\n")
        self.answer("no")
        self.until("!document.querySelector('#text-fault').hidden")
        self.assertIn('Line 1, column 1: expected "strike", found "rule"', self.text("#text-fault"))
        self.assertEqual(self.counts(), [14, 0, 1])

    def test_leaving_asks_while_something_is_not_saved(self):
        asks = "const e = new Event('beforeunload', { cancelable: true }); window.dispatchEvent(e); return e.defaultPrevented"
        self.assertFalse(self.browser.run(asks))
        self.write(SIX + "\n")
        self.assertTrue(self.browser.run(asks))
        self.press("#save-text")
        self.assertEqual(self.saved("sheet.txt").decode(), SIX + "\n")
        self.assertFalse(self.browser.run(asks))
        self.browser.click("#mark")
        self.assertTrue(self.browser.run(asks))


class Caret(Acting):
    """The record at the caret: K, its split, its pairs."""

    def test_a_line(self):
        self.caret(1)
        self.assertEqual(self.drawn("k"), ["2-3"])
        self.assertEqual(self.drawn("named"), ["2-6", "3-6", "5-6"])
        self.assertIn("2 pairs stand at 6 under 2-3.", self.text("#case"))
        self.assertEqual(self.browser.run("return document.querySelectorAll('#picture .rings circle').length"), 1)

    def test_a_crossing(self):
        self.caret(4)
        self.assertEqual(self.drawn("k"), ["1-2", "2-3", "3-6", "5-6"])
        self.assertEqual(self.drawn("crossed"), ["1-4"])
        self.assertIn("centres 2 and 6", self.text("#legend"))

    def test_a_line_without_a_record(self):
        self.caret(5)
        self.assertEqual(self.drawn("k"), [])
        self.assertEqual(self.text("#case"), "")

    def test_a_pair_lights_up(self):
        self.caret(1)
        self.browser.run("document.querySelector('#case .chip').dispatchEvent(new Event('pointerenter'))")
        self.assertEqual(self.drawn("lit"), ["2-6", "5-6"])
        self.browser.run("document.querySelector('#case .chip').dispatchEvent(new Event('pointerleave'))")
        self.assertEqual(self.drawn("lit"), [])

    def test_many_pairs_come_some_at_a_time(self):
        self.open("#open-any", EXAMPLES / "board-180.sheet")
        self.write("strike 1-100, split at 90\n")
        self.caret(1)
        pairs = int(self.text("#case").partition(" pairs stand")[0].rpartition("\n")[2].replace(",", ""))
        self.assertLess(1000, pairs)
        shown = "return document.querySelectorAll('#case .chip').length"
        self.assertEqual(self.browser.run(shown), 48)
        self.browser.click("#case .more")
        self.assertEqual(self.browser.run(shown), 96)

    def test_reasons_are_those_that_the_library_tells(self):
        self.open("#open-any", EXAMPLES / "reasons.txt")
        self.write("strike 1-3, split at 4\n  pair 3-5: split at 1\n")
        self.caret(1)
        self.browser.click("#case .reasons summary")
        self.until("document.querySelector('#case .sentence')")
        shown = self.browser.run("return [...document.querySelectorAll('#case .sentence')].map(one => one.textContent)")
        table = measure(5, 1, [(0, 0), (10, 0), (10, 10), (0, 10), (0, 5)])
        told = tell_line(5, table, fresh_marks(5), [[1, 1, 3, 0, 0, 4, 2, 0], [2, 3, 5, 0, 0, 1, 0, 0]], 1)
        self.assertEqual(shown, told)
        self.assertEqual([sentence[0] for sentence in told], list("ELMEEF"))

    def test_a_reason_lights_up_its_edges(self):
        """The sentence is given: both edges of an exchange, and what the pair puts in."""
        self.caret(1)
        self.browser.run("""const [{ sheetPanel }, { Lengths }] = await Promise.all([import("revosti/main"), import("revosti/lengths")]);
            document.querySelector("#case .reasons")?.remove();
            Lengths.prototype.tell = () => given;
            sheetPanel.showReasons(document.querySelector("#case"), sheetPanel.case);""",
                         "Exchanging 1-6 and 2-3 saves 12 and shuts out 1 and 4 as neighbours of 6.")
        self.browser.click("#case .reasons summary")
        self.until("document.querySelector('#case .sentence')")
        self.browser.run("document.querySelector('#case .sentence').dispatchEvent(new Event('pointerenter'))")
        self.assertEqual([self.drawn("lit"), self.drawn("put")], [["1-6", "2-3"], ["1-6", "4-6"]])
        self.browser.run("document.querySelector('#case .sentence').dispatchEvent(new Event('pointerleave'))")
        self.assertEqual(self.drawn("lit"), [])

    def test_what_a_sentence_speaks_of(self):
        lit = self.browser.run("const { spokenOf } = await import('revosti/reasons'); return given[0].map(spokenOf)", [
            "Struck edge 3-5 shuts out 3 and 8 as neighbours of 5.", "Loop 1-2-5 shuts out 1 and 2 as neighbours of 5.",
            "Exchanging 3-5 and 1-2 saves 12 and shuts out 3 and 8 as neighbours of 5.",
            "Moving 5 between 1 and 2 saves 7 and shuts out 3 and 8 as neighbours of 5.",
            "Crossing 1-2 with centres 3 and 8 saves 3 and settles 3 and 8 as neighbours of 5.",
            "New order 1-4-3-9 saves 5 and settles 3 and 8 as neighbours of 5.", "Third edge at 5 shuts out 3 and 8 as neighbours of 5.",
            "Further split at 9 settles 3 and 8 as neighbours of 5."])
        self.assertEqual([one["edges"]["lit"] for one in lit], [[[3, 5]], [[1, 2], [2, 5], [1, 5]], [[3, 5], [1, 2]], [[1, 2]], [[1, 2]],
                                                                [[1, 4], [3, 4], [3, 9]], [], []])
        self.assertEqual([one["rings"] for one in lit], [[5], [5], [5], [5, 5], [5, 3, 8], [5], [5, 5], [5, 9]])


class Large(Acting):
    """180 holes, 4,000 records."""

    def test_a_full_sheet(self):
        self.open("#open-any", EXAMPLES / "board-180.sheet")
        self.assertEqual(self.counts(), [16110, 0, 0])
        self.assertEqual(self.browser.run("return document.querySelector('#editor textarea').value.split('\\n').length"), 4001)
        self.browser.click("#ask")
        self.assertIn("every line of the sheet is accepted, 1,281 lines.", self.text("#verdict"))
        self.assertEqual(self.counts(), [14829, 1281, 0])
        before = self.ink()
        self.browser.click("#show-open")
        self.assertLess(self.ink(), before)
        self.browser.click("#confirm")
        self.assertEqual(self.counts(), [14829, 0, 1281])
        self.open("#open-any", EXAMPLES / "board-180.tour")
        self.until("document.querySelector('#tour-words').innerText")
        self.assertIn("All its edges are open.", self.text("#tour-words"))
        self.assertEqual(len(self.drawn("tour")), 180)

    def test_one_record_too_many(self):
        self.open("#open-any", EXAMPLES / "square.tsp")
        self.browser.run("const a = document.querySelector('#editor textarea'); a.value = given[0].repeat(4001);"
                         "a.dispatchEvent(new Event('input'))",
                         "strike 1-2, split at 3\n")
        self.browser.click("#check")
        self.assertIn("The sheet has 4,001 records.", self.text("#verdict"))
