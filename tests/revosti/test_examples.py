"""The examples of crates/examples, over the shared object; lines that are wrong or cannot be read are told."""

import re
import unittest

from tests.support import ROOT

from tests.support.examples import FUNCTIONS, STDOUT, Fault, Run, lines

SIGNATURES = ROOT / "crates/example_text/src/signatures.rt"
LIST = re.compile(r'\(\s*Function::\w+,\s*"([^"]*)",?\s*\)')
BITS = {"h": 16, "w": 32, "l": 64}  # a letter of the list; the others are buffers

GOOD = "mark_sheet n=4 table=10,14,10,10,14,10 marks=85,5,85/2 sheet=1,1,3,0,0,2,0,0 -> 16777216 marks=81,5,85"
CHANGES = (  # what of the line becomes what, and how the fault begins
    ("16777216", "16777217", "the answer is"),
    ("81,5,85", "81,5,84", "marks is left"),
    (" marks=81,5,85", "", "marks is left"),
    ("marks=81,5,85", "table=10,14,10,10,14,11", "table is left"),
    ("mark_sheet", "mark_sheat", "no such function"),
    ("sheet=1,1,3,0,0,2,0,0", "sheet=1,1,3,0,0,2,0,65536", "no number"),
    ("n=4", "n=4294967296", "no number"),
    ("marks=85,5,85/2", "marks=85,256,85/2", "no number"),
    ("marks=85,5,85/2", "marks=85,5,85/4", "marks: more is lent"),
    ("marks=85,5,85/2", "marks=@", "marks: no line before"),
    ("marks=85,5,85/2", "marks=85,5,", "marks cannot be read"),
    ("table=10,", 'table="10",', "table cannot be read"),
    ("n=4 ", "", "its arguments"),
    ("n=4", "m=4", "its arguments"),
    ("n=4", "n=4 n=4", "its arguments"),
    ("n=4 ", "n=4  ", "its arguments"),
    (" -> 16777216 marks=81,5,85", "", "its arguments"),
    ("16777216 marks=81,5,85", "", "its arguments"),
    ("marks=81,5,85", "marks=", "the buffers"),
    ("marks=81,5,85", "n=4", "the buffers"),
    ("marks=81,5,85", "marks=81,5,85 ", "the buffers"),
)


class Examples(unittest.TestCase):
    def test_all(self):
        run, count = Run(), 0
        for place, text in lines():
            with self.subTest(line=place):
                run.run(text)
            count += 1
        self.assertEqual(STDOUT.read_text(), f"{count} examples, 0 wrong\n")

    def test_every_function_has_one(self):
        self.assertEqual({text.split(" ")[0] for _, text in lines()}, set(FUNCTIONS))

    def test_faults_are_told(self):
        Run().run(GOOD)
        for old, new, told in CHANGES:
            with self.subTest(new), self.assertRaises(Fault) as caught:
                self.assertEqual(GOOD.count(old), 1, old)
                Run().run(GOOD.replace(old, new))
            self.assertTrue(str(caught.exception).startswith(told), caught.exception)

    def test_the_list_of_functions_is_the_header_s(self):
        listed = [line.split(" ") for line in LIST.findall(SIGNATURES.read_text(encoding="utf-8"))]
        found = {name: [(part[:-2], BITS.get(part[-1], 0)) for part in parts] for name, *parts in listed}
        self.assertEqual(found, FUNCTIONS)


if __name__ == "__main__":
    unittest.main()
