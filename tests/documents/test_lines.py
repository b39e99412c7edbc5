"""No line of a document is wider than 120 columns, tables, blocks of code and the targets of links left out."""

import re
import unittest

from tests.support import ROOT

MOST = 120
DOCUMENTS = ("README.md", "CONTRIBUTING.md", "second/README.md", *(f"docs/{file.name}" for file in sorted((ROOT / "docs").glob("*.md"))))
README_LINES = 100


def wide(text):
    """The numbers of the lines that are too wide."""
    found, fenced = [], False
    for number, line in enumerate(text.split("\n"), 1):
        fenced ^= line.lstrip().startswith("```")
        left_out = fenced or line.startswith(("|", "    ", "```"))
        if not left_out and len(re.sub(r"\]\([^)\s]*\)", "]", line)) > MOST:
            found.append(number)
    return found


class Lines(unittest.TestCase):
    def test_width(self):
        for name in DOCUMENTS:
            with self.subTest(name):
                self.assertEqual(wide((ROOT / name).read_text(encoding="utf-8")), [])

    def test_readme_is_short(self):
        self.assertLessEqual(len((ROOT / "README.md").read_text(encoding="utf-8").splitlines()), README_LINES)

    def test_what_is_told(self):
        long = "a " * 61
        self.assertEqual(wide(f"{long[:120]}\n{long}\n- {long[:119]}"), [2, 3])
        self.assertEqual(wide(f"| {long} |\n```\n{long}\n```\n    {long}\n{'a' * 100} [rules]({'b' * 30})"), [])
        self.assertEqual(wide(f"```\n```\n{long}"), [3])
