"""examples/open_edges.py runs from any folder and prints the four sides of the square, and docs/USE.md shows it."""

import subprocess
import sys
import tempfile
import unittest

from tests.support import ROOT

OPEN = "1-2 is open, length 10\n1-4 is open, length 10\n2-3 is open, length 10\n3-4 is open, length 10\n"


class Example(unittest.TestCase):
    def test_open_edges(self):
        with tempfile.TemporaryDirectory() as elsewhere:
            run = subprocess.run([sys.executable, "-B", ROOT / "examples/open_edges.py"], cwd=elsewhere, capture_output=True, text=True,
                                 check=False)
        self.assertEqual((run.returncode, run.stderr, run.stdout), (0, "", OPEN))

    def test_the_document_has_it(self):
        program = (ROOT / "examples/open_edges.py").read_text(encoding="utf-8")
        self.assertIn(program, (ROOT / "docs/USE.md").read_text(encoding="utf-8"))
