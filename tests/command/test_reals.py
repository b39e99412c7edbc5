"""revosti board: real coordinates scaled and rounded to whole ones."""

import unittest
from fractions import Fraction

from tests.support import EXAMPLES
from tests.support.command import Folder, Run

import revosti
from revosti_command.reals import read_reals, rounded

HEAD = "NAME: r\nTYPE: TSP\nDIMENSION: 5\nEDGE_WEIGHT_TYPE: EUC_2D\nNODE_COORD_SECTION\n"
NODES = "1 1.5 2.25\n2 1.11630e+03 5\n3 2 2\n4 3 3.001\n5 7 7\n"


def points(text, **more):
    """The rounded points of a text."""
    return read_reals(text.encode(), **more).parts.points


class Rounded(unittest.TestCase):
    def test_nearest(self):
        for value, whole in (("0.5", 1), ("1.5", 2), ("0.49999999999999999999", 0), ("-0.5", 0), ("-0.51", -1), ("2.4", 2), ("7", 7)):
            self.assertEqual(rounded(Fraction(value)), whole)

    def test_points(self):
        self.assertEqual(points(HEAD + NODES + "EOF\n"), [(2, 2), (1116, 5), (2, 2), (3, 3), (7, 7)])
        self.assertEqual(points(HEAD + NODES, scale=Fraction("100")), [(150, 225), (111630, 500), (200, 200), (300, 300), (700, 700)])
        self.assertEqual(points(HEAD + NODES, most=4), [(2, 2), (1116, 5), (2, 2), (3, 3)])

    def test_below_0(self):
        self.assertEqual(points(HEAD + NODES.replace("1.5 2.25", "-10.5 -0.4")), [(0, 0), (1126, 5), (12, 2), (13, 3), (17, 7)])

    def test_shapes(self):
        for text in ((HEAD + NODES + "EOF\n").replace("\n", "\r\n"), (HEAD + NODES).replace(" ", "\t"), "\ufeff" + HEAD + NODES,
                     HEAD + NODES + "EOF",
                     HEAD.replace("NODE_COORD_SECTION", "DISPLAY_DATA_TYPE : COORD_DISPLAY\n\nNODE_COORD_SECTION:") + NODES,
                     HEAD + NODES.replace("7 7", "7. +7.0E0"), HEAD + NODES + "EOF\nmore\n"):
            self.assertEqual(points(text), [(2, 2), (1116, 5), (2, 2), (3, 3), (7, 7)])


class Command(Folder):
    def test_round_trip(self):
        for name in ("square.tsp",):
            out = self.folder / "out.tsp"
            run = Run("board", EXAMPLES / name, "-o", out)
            self.assertEqual((run.status, run.err), (0, f"revosti: {EXAMPLES / name}: no coordinate is rounded\n"))
            self.assertEqual(list(revosti.read_tsplib(out.read_bytes()).table), [10, 14, 10, 10, 14, 10])

    def test_what_is_told(self):
        file = self.put("r.tsp", HEAD + NODES)
        self.assertEqual(Run("board", file, "--points", 4, "--scale", "0.5").err,
                         f"revosti: {file}: the first 4 points of 5; coordinates times 0.5, and so are lengths, before they are rounded; "
                         "6 coordinates of 8 rounded, the most by 0.5: 1.5 of point 4 to 2; lengths change with them\n")

    def test_every_rule(self):
        for rule in ("EUC_2D", "CEIL_2D", "ATT", "MAN_2D", "MAX_2D"):
            run = Run("board", data=(HEAD + NODES).replace("EUC_2D", rule).encode())
            self.assertIn(f"EDGE_WEIGHT_TYPE : {rule}\n", run.text)

    def test_bad_texts(self):
        for text, words in ((HEAD, ": expected 5 nodes, found 0 nodes"),
                            (HEAD + NODES.replace("3 2 2", "3 2"), ", line 8: expected node 3 of 5"),
                            (HEAD + NODES.replace("3 2 2", "4 2 2"), ", line 8: expected node 3 of 5"),
                            (HEAD + NODES.replace("3 2 2", "3 2 x"), ', line 8: expected a number, found "x"'),
                            (HEAD + NODES.replace("3 2 2", f"3 2 {'9' * 5000}"), ", line 8: expected a number, found"),
                            (HEAD + NODES.replace("3 2 2", "3 2 1e999"), ", line 8: expected a number, found"),
                            (HEAD + NODES.replace("3 2 2", "3 2 1000001"),
                             ": point 3 comes to 2 1000001, above 1,000,000; a smaller --scale helps"),
                            (HEAD.replace("EUC_2D", "GEO") + NODES,
                             ', line 4: expected EUC_2D, CEIL_2D, ATT, MAN_2D, MAX_2D as EDGE_WEIGHT_TYPE, found "GEO"'),
                            (HEAD.replace("5", "x") + NODES, ', line 3: expected a whole number as DIMENSION, found "x"'),
                            ("what\n", ', line 1: expected a keyword with a colon or NODE_COORD_SECTION, found "what"'),
                            ("", ": expected NODE_COORD_SECTION"),
                            (HEAD.replace("5", "2") + NODES, ": the board has 2 points, and 4 to 180 are wanted")):
            run = Run("board", data=text.encode())
            self.assertEqual((run.status, run.out), (2, b""), text)
            self.assertTrue(run.err.startswith(f"revosti: standard input{words}"), run.err)
