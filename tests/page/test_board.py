"""Boards on the page: from texts of every kind, bad ones, and the picture."""


from tests.support import EXAMPLES, texts
from tests.support.page.acting import Acting

SPOTS = ("return [...document.querySelectorAll('#picture .holes circle')].map(c => ['cx', 'cy'].map(name => Number(c.getAttribute(name))))")
WEIGHTS = "10 14 10\n10 14\n10\n"
SQUARE = "0 0\n10 0\n10 10\n0 10\n"


class Board(Acting):
    """The board's box."""

    def use(self, text, kind="any", rule=None):
        """Uses a board that is typed in."""
        self.browser.click("#tab-board")
        self.browser.run("const [text, kind, rule] = given, k = document.querySelector('#board-kind'); k.value = kind;"
                         "k.dispatchEvent(new Event('change')); if (rule) document.querySelector('#board-rule').value = rule;"
                         "document.querySelector('#board-editor textarea').value = text", text, kind, rule)
        self.browser.click("#use-board")

    def lengths(self):
        """The lengths on the first page of the wall list."""
        self.browser.click("#tab-wall")
        return [int(line[8:15]) for line in self.browser.run("return document.querySelector('#wall').textContent").splitlines()]

    def test_every_kind_of_text(self):
        square = [10, 14, 10, 10, 14, 10]
        for text, kind, rule, lengths in ((texts.text(texts.NODES).decode(), "any", None, square), (WEIGHTS, "weights", None, square),
                                          (texts.text(texts.WEIGHTS).decode(), "any", None, square), (SQUARE, "coordinates", "1", square),
                                          (SQUARE, "coordinates", "4", [10, 20, 10, 10, 20, 10]),
                                              ("1, 0, 0\n2 10 0\n3 10 10\n4 0 10", "coordinates", "1", square),
                                          ("rule 2\npoints 4\n1 0 0\n2 10 0\n3 10 10\n4 0 10\n", "any", None, [10, 15, 10, 10, 15, 10])):
            with self.subTest(text):
                self.use(text, kind, rule)
                self.assertTrue(self.browser.run("return document.querySelector('#board-fault').hidden"))
                self.assertEqual(self.lengths(), lengths)

    def test_bad_boards_are_told_and_nothing_changes(self):
        before = self.text("#board-words")
        for text, kind, line, words in (
                (texts.changed(texts.NODES, 8, "2 1.5 0").decode(), "any", 8, "expected node 2 of 4"),
                    ("", "any", 1, "found the end of the text"),
                ("rule 1\npoints 3\n1 0 0\n2 1 0\n3 1 1\n", "any", 0, "Refused, number 1: n is outside 4 to 180. Here n is 3."),
                ("rule 9\npoints 4\n1 0 0\n2 1 0\n3 1 1\n4 0 1\n", "any", 0,
                    "Refused, number 3: The rule is outside 1 to 5. Here the rule is 9."),
                ("rule 1\npoints 4\n1 0 0\n2 1 0\n3 1 1\n5 0 1\n", "any", 6, 'expected point 4 of 4, found "5"'),
                ("0 0\n1 1000001\n5 5\n6 6", "coordinates", 0, "Point 2 is at 1 1000001."),
                    ("0 0\n1\n", "coordinates", 2, "expected two whole coordinates"),
                ("0 0\n1 x\n", "coordinates", 2, 'found "x"'), ("1 2 3 4 5 6 7", "weights", 0, "found 7 numbers"),
                ("1 2 3 4 5 2000001", "weights", 0, "Refused, number 5"), ("1 2 3", "weights", 0, "Refused, number 1")):
            with self.subTest(text):
                self.use(text, kind)
                told = self.text("#board-fault")
                self.assertIn(words, told)
                self.assertEqual(self.browser.run("return document.querySelector('#board-editor .band.fault')?.dataset.line ?? '0'"),
                    str(line))
                self.assertEqual(self.text("#board-words"), before)

    def test_weights_lie_on_a_circle(self):
        self.open("#open-any", EXAMPLES / "square_weights.tsp")
        self.assertIn("4 holes, 6 edges, by weights", self.text("#board-words"))
        self.frame()
        holes = self.browser.run(SPOTS)
        middle = [sum(p[i] for p in holes) / 4 for i in (0, 1)]
        far = [((x - middle[0]) ** 2 + (y - middle[1]) ** 2) ** 0.5 for x, y in holes]
        self.assertLess(max(far) - min(far), 0.5)
        self.assertTrue(self.browser.run("return document.querySelector('#save-binary').disabled"))

    def test_another_board_asks_where_marks_are_not_saved(self):
        self.browser.click("#mark")
        self.open("#open-any", EXAMPLES / "square.tsp")
        self.answer("no")
        self.assertIn("6 holes", self.text("#board-words"))
        self.assertEqual(self.counts(), [14, 0, 1])
        self.open("#open-any", EXAMPLES / "square.tsp")
        self.answer("yes")
        self.until("document.querySelector('#board-words').innerText.startsWith('4 holes')")
        self.assertEqual(self.counts(), [6, 0, 0])

    def test_a_board_of_the_same_lengths_keeps_the_marks(self):
        self.open("#open-any", EXAMPLES / "square.tsp")
        self.write("strike 1-3, split at 2\n")
        self.browser.click("#mark")
        self.open("#open-any", EXAMPLES / "square_weights.tsp")
        self.until("document.querySelector('#board-words').innerText.includes('by weights')")
        self.assertEqual(self.counts(), [5, 0, 1])
        self.assertIn("marks not saved", self.text("#unsaved"))

    def test_a_text_in_the_box_is_not_replaced_unasked(self):
        self.use("rule 1\npoints 3\n")
        self.open("#open-any", EXAMPLES / "square.tsp")
        self.answer("no")
        self.assertEqual(self.value("#board-editor textarea"), "rule 1\npoints 3\n")
        self.assertIn("6 holes", self.text("#board-words"))
        self.open("#open-any", EXAMPLES / "square.tsp")
        self.answer("yes")
        self.until("document.querySelector('#board-words').innerText.startsWith('4 holes')")
        self.assertTrue(self.value("#board-editor textarea").startswith("NAME : square"))


class Picture(Acting):
    """Switches, zoom, pan, keys, the wheel and fingers."""

    def spots(self):
        """Where the holes are drawn."""
        self.frame()
        return self.browser.run(SPOTS)

    def wide(self):
        """How wide the board is drawn."""
        xs = [x for x, _ in self.spots()]
        return max(xs) - min(xs)

    def test_switches(self):
        self.browser.click("#mark")
        for kind in ("struck", "open"):
            before = self.ink()
            self.browser.click(f"#show-{kind}")
            self.assertLess(self.ink(), before)
            self.assertEqual(self.browser.run(f"return document.querySelector('#show-{kind}').getAttribute('aria-pressed')"), "false")
        self.assertEqual(self.ink(), 0)
        self.browser.click("#show-struck")
        self.assertLess(0, self.ink())

    def test_buttons_and_keys(self):
        first, spots = self.wide(), self.spots()
        self.browser.click("#zoom-in")
        self.assertAlmostEqual(self.wide(), first * 1.4, delta=1)
        self.browser.click("#zoom-out")
        self.assertAlmostEqual(self.wide(), first, delta=1)
        self.browser.type("#picture", "+")
        self.assertAlmostEqual(self.wide(), first * 1.25, delta=1)
        self.browser.type("#picture", "0")
        self.assertAlmostEqual(self.wide(), first, delta=1)
        self.browser.type("#picture", "\ue014")  # arrow right
        self.assertAlmostEqual(self.spots()[0][0], spots[0][0] - 40, delta=1)
        self.browser.click("#zoom-fit")
        self.assertEqual(self.spots(), spots)

    def test_mouse_and_wheel(self):
        spots, first = self.spots(), self.wide()
        element = self.browser.find("#picture")
        move = {"type": "pointerMove", "origin": element, "x": 0, "y": 0}
        self.browser.act({"type": "pointer", "id": "mouse",
            "actions": [move, {"type": "pointerDown", "button": 0}, {**move, "x": 60, "y": 30}, {"type": "pointerUp", "button": 0}]})
        self.assertAlmostEqual(self.spots()[0][0], spots[0][0] + 60, delta=1)
        self.assertAlmostEqual(self.spots()[0][1], spots[0][1] + 30, delta=1)
        self.browser.act({"type": "wheel", "id": "wheel",
            "actions": [{"type": "scroll", "origin": element, "x": 0, "y": 0, "deltaX": 0, "deltaY": -200}]})
        self.assertLess(first * 1.2, self.wide())

    def test_two_fingers(self):
        first, element = self.wide(), self.browser.find("#picture")

        def finger(name, sign):
            at = {"type": "pointerMove", "origin": element, "x": sign * 40, "y": 0}
            return {"type": "pointer", "id": name, "parameters": {"pointerType": "touch"},
                    "actions": [at, {"type": "pointerDown", "button": 0}, {**at, "x": sign * 80, "duration": 100},
                        {"type": "pointerUp", "button": 0}]}
        self.browser.act(finger("one", -1), finger("two", 1))
        self.assertAlmostEqual(self.wide(), 2 * first, delta=0.2 * first)

    def test_a_hole_is_told(self):
        x, y = self.spots()[5]
        self.browser.run("const f = document.querySelector('#picture'), r = f.getBoundingClientRect();"
                         "f.dispatchEvent(new PointerEvent('pointermove', { clientX: r.left + given[0], clientY: r.top + given[1] }))",
                             x, y)
        self.assertEqual(self.text("#picture .tip"), "Hole 6 at 27 3: 5 open")

    def test_a_narrow_screen_has_one_column(self):
        self.addCleanup(self.browser.send, "POST", "/goog/cdp/execute", {"cmd": "Emulation.clearDeviceMetricsOverride", "params": {}})
        self.browser.send("POST", "/goog/cdp/execute", {"cmd": "Emulation.setDeviceMetricsOverride", "params": {
            "width": 390, "height": 844, "deviceScaleFactor": 1, "mobile": True}})
        self.frame()
        boxes = self.browser.run("return ['.board', '.side', '#picture'].map(s => document.querySelector(s).getBoundingClientRect())"
                                 ".map(r => [r.left, r.right, r.top, r.bottom])")
        board, side, picture = boxes
        self.assertLessEqual(board[3], side[2])
        self.assertTrue(all(0 <= left and right <= 390 for left, right, _, _ in boxes))
        self.assertLess(200, picture[3] - picture[2])
        self.assertLessEqual(self.browser.run("return document.documentElement.scrollWidth"), 390)

    def test_4_and_180_holes_lie_inside(self):
        for file, n in ((EXAMPLES / "square.tsp", 4), (EXAMPLES / "board-180.sheet", 180)):
            self.open("#open-any", file)
            self.until(f"document.querySelectorAll('#picture .holes circle').length === {n}")
            wide, high = self.browser.run("const f = document.querySelector('#picture'); return [f.clientWidth, f.clientHeight]")
            self.assertTrue(all(10 < x < wide - 10 and 10 < y < high - 10 for x, y in self.spots()))
