"""The page, built once, and a browser that has opened it. At the end of each test nothing stands
in the browser's log, and no address but the page's own was asked for."""

import subprocess
import unittest
from functools import cache

from tests.support import ROOT
from tests.support.page.driver import Browser

PAGE, WASM = ROOT / "target/revosti.html", ROOT / "target/revosti.wasm"


@cache
def page():
    """The page of this tree."""
    subprocess.run([ROOT / "tools/page"], check=True)
    return PAGE


class PageTest(unittest.TestCase):
    """Tests that have a browser in common; each opens the page anew."""

    @classmethod
    def setUpClass(cls):
        cls.browser = Browser(page())
        cls.addClassCleanup(cls.browser.close)

    def setUp(self):
        self.browser.open(page())
        self.addCleanup(self.silent)

    def silent(self):
        """What the browser says of the page at the end of a test."""
        self.assertEqual(self.browser.log(), [])
        self.assertEqual(set(self.browser.requests()), {self.browser.url})
