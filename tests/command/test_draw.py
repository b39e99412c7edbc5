"""draw: well-formed pictures with the right number of everything."""

import random
import re
import unittest
from xml.etree import ElementTree

from tests.support import EXAMPLES
from tests.support.command import NINE, SQUARE_POINTS, SQUARE_RECORDS, Folder, Run, binary
from tests.support.packing import packed

from revosti_command.draw import WIDTH, Scene, draw
from revosti_command.edges import RULES, edges
from revosti_command.labels import overlap, place_labels
from revosti_command.tour import legs

SVG = "{http://www.w3.org/2000/svg}"


class Picture:
    """A picture, read as XML."""

    def __init__(self, text):
        self.root = ElementTree.fromstring(text)
        self.groups = {g.get("id"): g for g in self.root.iter(f"{SVG}g")}

    def edges(self, name):
        """The number of edges drawn in a group."""
        return sum(p.get("d").count("M") for p in self.groups[name])

    def texts(self, name):
        """The words in a group."""
        return [t.text for t in self.groups[name].iter(f"{SVG}text")]

    def spots(self):
        """The middle of each hole."""
        return [(int(c.get("cx")), int(c.get("cy"))) for c in self.groups["holes"]]


def picture(points, struck=(), tour=(), rule=1, pending=(), length=0, without=()):
    """The picture of a board with some edges struck and some pending."""
    marks = [0 if e in struck else 2 if e in pending else 1 for e in edges(len(points))]
    return Picture(draw(Scene(points, RULES[rule], marks, legs(list(tour)), length, without=without)))


class Draw(unittest.TestCase):
    """What the pictures hold."""

    def test_square(self):
        p = picture(SQUARE_POINTS, [(1, 3)], [1, 2, 4, 3], length=48)
        self.assertEqual([p.edges(g) for g in ("open", "struck", "tour", "broken")], [5, 1, 3, 1])
        self.assertEqual(p.texts("labels"), ["1", "2", "3", "4"])
        self.assertEqual(p.texts("legend"), ["4 holes (EUC_2D)", "open: 5 edges", "struck: 1 edge",
                                             "tour: length 48", "struck, in the tour: 1"])

    def test_pending(self):
        p = picture(SQUARE_POINTS, [(1, 3)], [1, 2, 4, 3], pending=[(2, 4), (1, 4)], length=48)
        self.assertEqual([p.edges(g) for g in ("open", "pending", "struck", "tour", "broken")], [3, 2, 1, 3, 1])
        self.assertEqual(p.texts("legend"), ["4 holes (EUC_2D)", "open: 3 edges", "pending: 2 edges", "struck: 1 edge",
                                             "tour: length 48", "struck, in the tour: 1"])

    def test_pending_looks_like_nothing_else(self):
        p = picture(SQUARE_POINTS, [(1, 3)], [1, 2, 4, 3], pending=[(2, 4)])
        looks = dict(re.findall(r"^\.(\w+) \{ (stroke: .*) \}$", p.root.find(f"{SVG}style").text, re.M))
        self.assertEqual(sorted(looks), ["broken", "core", "open", "pending", "struck", "tour"])
        for part in ("stroke: [^;]*", "(stroke-dasharray: .*?;|$)"):
            others = [re.search(part, look)[0] for name, look in looks.items() if name != "pending"]
            self.assertNotIn(re.search(part, looks["pending"])[0], others)

    def test_pending_lies_above_the_tour(self):
        p = picture(SQUARE_POINTS, [], [1, 2, 4, 3], pending=[(2, 4), (1, 4)])
        order = [group for group in p.groups if group in ("tour", "core", "pending")]
        self.assertEqual(order, ["tour", "core", "pending"])
        self.assertEqual([p.edges(g) for g in order], [4, 1, 2])

    def test_rules(self):
        for rule, name, length in ((2, "CEIL_2D", 50), (3, "ATT", 18), (4, "MAN_2D", 60), (5, "MAX_2D", 40)):
            rows = Picture(Run("draw", "--tour", "1,2,4,3", data=binary(rule=rule, records=[]))
                           .text).texts("legend")
            self.assertEqual((rows[0], rows[3]), (f"4 holes ({name})", f"tour: length {length}"))

    def test_without(self):
        p = picture(SQUARE_POINTS, [(1, 3)], [1, 2, 4, 3], without=("struck",))
        self.assertEqual([p.edges(g) for g in ("open", "struck", "tour", "broken")], [5, 0, 3, 1])
        self.assertNotIn("struck: 1 edge", p.texts("legend"))

    def test_open_edges_have_more_ink_than_struck_ones(self):
        for count in (0, 1, 3, 5):
            css = picture(SQUARE_POINTS, edges(4)[:count]).root.find(f"{SVG}style").text
            looks = dict(re.findall(r"^\.(open|struck) \{ (stroke: .*) \}$", css, re.M))
            ink = {}
            for name, look in looks.items():
                width, opacity = (float(re.search(rf"{part}: ([\d.]+)", look)[1]) for part in ("stroke-width", "opacity"))
                on, off = map(int, re.search(r"dasharray: (\d+) (\d+)", f"{look} dasharray: 1 0").groups())
                ink[name] = width * opacity * on / (on + off)
            self.assertGreater(ink["open"], 1.3 * ink["struck"])

    def test_second_coordinate_grows_upward(self):
        first, second, third, fourth = picture(SQUARE_POINTS).spots()
        self.assertTrue(first[0] == fourth[0] < second[0] == third[0])
        self.assertTrue(fourth[1] == third[1] < first[1] == second[1])

    def test_no_tour(self):
        p = picture(SQUARE_POINTS)
        self.assertEqual([p.edges(g) for g in ("open", "pending", "struck", "tour", "broken")], [6, 0, 0, 0, 0])
        self.assertEqual(p.texts("legend"), ["4 holes (EUC_2D)", "open: 6 edges", "struck: 0 edges"])

    def test_180_holes(self):
        r = random.Random(1)
        points = [(r.randrange(10**6), r.randrange(10**6)) for _ in range(180)]
        struck = sorted({tuple(sorted(r.sample(range(1, 181), 2))) for _ in range(900)})
        p = picture(points, struck, range(1, 181))
        self.assertEqual(p.edges("struck"), len(struck))
        self.assertEqual(p.edges("open") + len(struck), 16110)
        self.assertEqual(p.edges("tour") + p.edges("broken"), 180)
        self.assertEqual(len(p.spots()), 180)
        self.assertEqual(p.texts("labels"), [str(i) for i in range(1, 181)])

    def test_everything_lies_in_the_picture(self):
        for points in ([(0, 0), (10**6, 0), (3, 10**6), (10**6, 10**6)], [(0, k) for k in range(5)],
                       [(k * 1000, 7) for k in range(9)], [(5, 5)] * 4):
            p = picture(points)
            height = int(p.root.get("height"))
            self.assertTrue(all(0 < x < WIDTH and 0 < y < height for x, y in p.spots()))
            for label in p.groups["labels"]:
                self.assertTrue(0 < float(label.get("x")) < WIDTH and 0 < float(label.get("y")) < height)

    def test_edges_end_at_their_holes(self):
        p = picture(SQUARE_POINTS, [(2, 4)])
        (x, y), (z, w) = p.spots()[1], p.spots()[3]
        self.assertEqual(p.groups["struck"][0].get("d"), f"M{x} {y}L{z} {w}")

    def test_labels_keep_apart(self):
        spots = [(100, 100), (100, 100), (100, 112), (300, 300)]
        found = place_labels(spots, 5, 14, (400, 400), [((0, 290), (400, 290))])
        boxes = [(x - 4.48, y - 10.36, x + 4.48, y) for x, y in found]
        for i, box in enumerate(boxes):
            self.assertFalse(any(overlap(box, other) for other in boxes[:i]))
        self.assertGreater(found[3][1], 300, "the number keeps off the line above")


class Command(Folder):
    """The whole command."""

    def test_nine_points(self):
        run = Run("draw", NINE, "--tour", "1,5,4,7,6,2,3,8,9")
        self.assertEqual((run.status, run.err), (0, ""))
        p = Picture(run.out)
        self.assertEqual([p.edges(g) for g in ("open", "struck", "tour", "broken")], [9, 27, 9, 0])

    def test_struck_edges_are_those_of_marking(self):
        p = Picture(Run("draw", data=binary([*SQUARE_RECORDS[:1], (1, 1, 2, 0, 0, 3, 0, 0)])).out)
        self.assertEqual([p.edges("open"), p.edges("struck")], [5, 1])

    def test_board_alone(self):
        run = Run("draw", EXAMPLES / "square.tsp")
        self.assertEqual((run.status, run.err), (0, ""))
        self.assertEqual(Picture(run.out).edges("open"), 6)
        run = Run("draw", EXAMPLES / "square_weights.tsp")
        self.assertEqual((run.status, run.out), (2, b""))
        self.assertIn("the board has weights", run.err)

    def test_refused_board(self):
        run = Run("draw", data=binary([], [(0, 0)] * 3))
        self.assertEqual((run.status, run.out), (1, b""))
        self.assertIn("number 1: n is outside 4 to 180. Here n is 3.", run.err)

    def test_case(self):
        p = Picture(Run("draw", NINE, "--record", 2).out)
        self.assertEqual([p.edges(g) for g in ("k", "crossed", "named", "due", "struck", "open")], [1, 0, 5, 0, 1, 35])
        self.assertEqual(p.texts("legend")[1:4], ["record 2: K, 1 edge", "split at 6", "with a case: 4 pairs"])
        self.assertEqual(len(p.groups["rings"]), 1)

    def test_case_with_pairs_due(self):
        text = NINE.read_text().replace("  pair 5-7: split at 2\n  pair 7-9: split at 2\n", "")
        p = Picture(Run("draw", "--record", 2, data=text.encode()).out)
        self.assertEqual([p.edges("named"), p.edges("due")], [2, 3])
        self.assertEqual(p.texts("legend")[3:5], ["with a case: 1-7, 2-7", "due: 5-7, 7-9"])

    def test_case_with_a_crossing(self):
        p = Picture(Run("draw", NINE, "--record", 10).out)
        self.assertEqual([p.edges(g) for g in ("k", "crossed", "named", "due")], [4, 1, 0, 0])
        self.assertEqual((len(p.groups["rings"]), p.texts("legend")[1:4]),
                         (2, ["record 10: K, 5 edges", "crossed: 4-8", "centres 2 and 5"]))

    def test_case_with_a_new_order(self):
        p = Picture(Run("draw", EXAMPLES / "stretch.bin", "--record", 3).out)
        self.assertEqual([p.edges(g) for g in ("k", "crossed", "stretch", "order", "named", "due")], [0, 0, 5, 5, 0, 0])
        self.assertEqual((len(p.groups["rings"]), p.texts("legend")[1:5]),
                         (2, ["record 3: K, 5 edges", "stretch 4-3-2-1-6-5: 48", "new order 4-6-2-3-1-5: 47", "from 4 to 5"]))
        spots = p.spots()
        for name, path in (("stretch", (4, 3, 2, 1, 6, 5)), ("order", (4, 6, 2, 3, 1, 5))):
            ends = [(*spots[min(e) - 1], *spots[max(e) - 1]) for e in zip(path, path[1:])]
            wanted = {f"M{x} {y}L{z} {w}" for x, y, z, w in ends}
            drawn = {piece for fan in p.groups[name] for piece in re.findall(r"M[^M]*", fan.get("d"))}
            self.assertEqual(drawn, wanted)
        self.assertEqual([group for group in p.groups if group in ("k", "stretch", "order", "holes")], ["k", "stretch", "order", "holes"])

    def test_new_order_of_a_part_of_k(self):
        p = Picture(self.reordered("4-2-3-1"))
        self.assertEqual([p.edges(g) for g in ("k", "stretch", "order")], [2, 3, 3])
        self.assertEqual(p.texts("legend")[2:5], ["stretch 4-3-2-1: 30", "new order 4-2-3-1: 31", "from 4 to 1"])

    def test_new_order_of_no_stretch(self):
        p = Picture(self.reordered("4-2-2-3"))
        self.assertEqual([p.edges(g) for g in ("k", "stretch", "order")], [5, 0, 2])
        self.assertEqual(p.texts("legend")[2:4], ["new order 4-2-2-3: 18", "from 4 to 3"])

    def test_new_order_that_is_none(self):
        p = Picture(self.reordered("4-9-5"))
        self.assertEqual([p.edges(g) for g in ("k", "stretch", "order")], [0, 5, 0])
        self.assertEqual(p.texts("legend")[1:4], ["record 3: K, 5 edges", "stretch 4-3-2-1-6-5: 48", "from 4 to 5"])

    def test_long_new_order(self):
        p = Picture(self.reordered("4" + "-2-3" * 9 + "-5"))
        self.assertEqual(p.texts("legend")[3], "new order: length 98")

    def test_new_order_looks_like_nothing_else(self):
        css = Picture(self.reordered("4-6-2-3-1-5")).root.find(f"{SVG}style").text
        looks = dict(re.findall(r"^\.(\w+) \{ stroke: ([^;]*); ", css, re.M))
        self.assertEqual([name for name, colour in looks.items() if colour == looks["order"]], ["order"])
        widths = {name: float(width) for name, width in re.findall(r"^\.(\w+) \{ stroke: [^;]*; stroke-width: ([\d.]+)", css, re.M)}
        self.assertLess(widths["order"], widths["stretch"])

    def reordered(self, order):
        """The picture of the case of the example with another new order."""
        text = Run("unpack", EXAMPLES / "stretch.bin").text.replace("order 4-6-2-3-1-5", f"order {order}")
        return Run("draw", "--record", 3, data=text.encode()).out

    def test_a_point_of_an_order_is_no_case(self):
        run = Run("draw", EXAMPLES / "stretch.bin", "--record", 4)
        self.assertEqual(run.all, (2, "", "revosti: --record: record 4 is a point of the order of record 3, and no case\n"))

    def test_no_case(self):
        for record, words in ((0, "found 0"), (72, "which has 71 records, found 72"), ("x", 'expected a record, found "x"')):
            run = Run("draw", NINE, "--record", record)
            self.assertEqual((run.status, run.out), (2, b""))
            self.assertIn(words, run.err)
        run = Run("draw", "--record", 2, data=binary([(1, 1, 2, 0, 0, 3, 0, 0), (0,) * 8]))
        self.assertIn("marking does not get to record 2", run.err)

    def marked(self, marks, data=binary(SQUARE_RECORDS)):
        """The command's run with a file of marks."""
        self.file = self.put("a.marks", marks)
        return Run("draw", "--marks", self.file, data=data)

    def test_marks_of_a_file(self):
        for marks, wanted in (([1, 2, 1, 1, 0, 1], [4, 1, 1]), ([1] * 6, [6, 0, 0]), ([2] * 6, [0, 6, 0])):
            p = Picture(self.marked(packed(marks)).out)
            self.assertEqual([p.edges(g) for g in ("open", "pending", "struck")], wanted)

    def test_each_edge_has_its_own_mark(self):
        for at, (a, b) in enumerate(edges(4)):
            for group, mark in (("struck", 0), ("pending", 2)):
                p = Picture(self.marked(packed([mark if place == at else 1 for place in range(6)])).out)
                (x, y), (z, w) = p.spots()[a - 1], p.spots()[b - 1]
                self.assertEqual([path.get("d") for path in p.groups[group]], [f"M{x} {y}L{z} {w}"])

    def test_marks_of_nine_points(self):
        marks = [random.Random(4).randrange(3) for _ in range(36)]
        p = Picture(self.marked(packed(marks), NINE.read_bytes()).out)
        self.assertEqual([p.edges(g) for g in ("struck", "open", "pending")], [marks.count(mark) for mark in range(3)])

    def test_bad_marks(self):
        size = "a.marks: expected a packed set of 4 points, 2 bytes, found "
        byte_set = "6 bytes; a byte set has this size, and \"revosti convert --to packed\" packs it\n"
        for marks, words in ((bytes(1), size + "1 byte\n"), (bytes(3), size + "3 bytes\n"), (b"", size + "0 bytes\n"),
                             (bytes(6), size + byte_set), (packed([1, 0, 2, 3, 3, 1]), "0, 1 or 2 as the mark of 2-3, found 3\n"),
                             (packed([1] * 5 + [3]), "0, 1 or 2 as the mark of 3-4, found 3\n"),
                             (packed([1] * 6 + [1]), "expected 0 in the unused bits of the last byte, found 1 there\n"),
                             (packed([1] * 6 + [0, 2]), "expected 0 in the unused bits of the last byte, found 1000 there\n")):
            with self.subTest(marks):
                run = self.marked(marks)
                self.assertEqual((run.status, run.out), (2, b""))
                self.assertIn(words, run.err)

    def test_marks_of_a_refused_board(self):
        run = self.marked(bytes(1), binary([], [(0, 0)] * 3))
        self.assertEqual((run.status, run.out), (1, b""))
        self.assertIn("Here n is 3.", run.err)

    def test_no_file_of_marks(self):
        run = Run("draw", "--marks", "/nowhere/a.marks", data=binary(SQUARE_RECORDS))
        self.assertEqual((run.status, run.out, run.err), (3, b"", "revosti: /nowhere/a.marks: No such file or directory\n"))

    def test_bad_tours(self):
        for tour, words in (("1,2,x,4", 'found "x"'), ("1,2,-3,4", 'found "-3"'), ("1,2,3,4,", 'found ""'), ("1,2,³,4", 'found "³"'),
                            ("9" * 5000, f"expected a point from 0 to 65535, found {'9' * 40}..")):
            with self.subTest(tour):
                run = Run("draw", "--tour", tour, data=binary(SQUARE_RECORDS))
                self.assertEqual((run.status, run.out), (2, b""))
                self.assertIn("revosti: TOUR: expected", run.err)
                self.assertIn(words, run.err)
        for tour, words in (("1,2,3", "Point 4 is missing."), ("1,2,3,3", "Point 3 is there 2 times."),
                            ("1,2,3,5", "Here is point 5; n is 4."),
                            ("", "Point 1 is missing.")):
            run = Run("draw", "--tour", tour, data=binary(SQUARE_RECORDS))
            self.assertEqual((run.status, run.out), (1, b""))
            self.assertIn("revosti: the tour: Refused, number 17: ", run.err)
            self.assertIn(words, run.err)
