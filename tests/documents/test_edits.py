"""The must-fail edits: each of their texts stands in its file exactly once, as `rt must-fail` asks, which tells it late."""

import unittest

from tests.support import ROOT


def faults_of(edit):
    """The texts of an edit that are not in their file once, in the order in which they are replaced."""
    crate, texts, file, old, faults = edit.parents[1], {}, None, None, []
    for line in edit.read_text(encoding="utf-8").splitlines():
        key, _, rest = line.partition(":")
        if key == "file":
            file = crate / rest.strip()
        elif key == "old":
            old = rest.removeprefix(" ")
        elif key == "new":
            text = texts.get(file) or file.read_text(encoding="utf-8")
            faults += [] if text.count(old) == 1 else [f"{text.count(old)} times in {file.name}: {old}"]
            texts[file] = text.replace(old, rest.removeprefix(" "), 1)
    return faults if texts or faults else ["it replaces nothing"]


class Edits(unittest.TestCase):
    def test_each_text_is_there_once(self):
        edits = sorted(ROOT.glob("crates/*/must-fail/*.edit"))
        self.assertTrue(edits)
        for edit in edits:
            with self.subTest(edit.relative_to(ROOT)):
                self.assertEqual(faults_of(edit), [])
