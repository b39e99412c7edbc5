"""What a person does with the page, in a word each: opening files, typing a sheet, looking at what is told and drawn."""

import atexit
import tempfile
import time
from functools import cache
from pathlib import Path

from tests.support.page.driver import Browser
from tests.support.page.opened import PageTest, page

SIX = "strike 2-3, split at 6\n  pair 2-5: split at 1\n  pair 3-5: split at 1\n    pair 2-4: crossing 1-4, centres 2 6\n"
WAIT = 20  # seconds until something has to be seen


@cache
def shared():
    """One browser for all tests that leave it as they found it; it is closed at the end."""
    browser = Browser(page())
    atexit.register(browser.close)
    return browser


class Shared(PageTest):
    """Tests that have one browser in common, across classes."""

    @classmethod
    def setUpClass(cls):
        cls.browser = shared()


class Acting(Shared):
    """Tests that do what a person does."""

    def setUp(self):
        super().setUp()
        self.until("document.documentElement.dataset.ready === 'yes'")
        for old in self.browser.downloads.iterdir():
            old.unlink()
        holder = tempfile.TemporaryDirectory()
        self.addCleanup(holder.cleanup)
        self.folder = Path(holder.name)

    def until(self, condition):
        """Waits until the page says yes."""
        end = time.monotonic() + WAIT
        while not self.browser.run(f"return Boolean({condition})"):
            self.assertLess(time.monotonic(), end, f"still not: {condition}")
            time.sleep(0.02)

    def text(self, selector):
        """The text of an element as it is seen."""
        return self.browser.run("return document.querySelector(given[0]).innerText", selector)

    def value(self, selector):
        """What a field holds."""
        return self.browser.run("return document.querySelector(given[0]).value", selector)

    def counts(self):
        """How many edges are open, pending and struck, as the switches tell."""
        return [int(self.text(f"#show-{kind} b").replace(",", "")) for kind in ("open", "pending", "struck")]

    def drawn(self, kind):
        """The edges of a kind that lie above the board, by name."""
        self.frame()
        return sorted(self.browser.run("return [...document.querySelectorAll(given[0])].map(e => e.dataset.edge)",
            f"#picture .kind-{kind} line"))

    def frame(self):
        """Waits until what has changed is drawn."""
        self.browser.run("await new Promise(done => requestAnimationFrame(() => requestAnimationFrame(done)))")

    def ink(self):
        """How many dots of the canvas have any ink."""
        self.frame()
        return self.browser.run("const c = document.querySelector('#picture canvas');"
                                "const p = new OffscreenCanvas(c.width, c.height).getContext('2d');"
                                "p.drawImage(c, 0, 0); const { data } = p.getImageData(0, 0, c.width, c.height);"
                                "let ink = 0; for (let at = 3; at < data.length; at += 4) ink += data[at] > 0; return ink")

    def write(self, text):
        """Puts a text in the sheet's field, as pasting does."""
        self.browser.click("#editor textarea")
        self.browser.run("const a = document.querySelector('#editor textarea'); a.focus(); a.select();"
                         "document.execCommand(given[0] ? 'insertText' : 'delete', false, given[0]); a.setSelectionRange(0, 0);"
                         "await new Promise(done => setTimeout(done, 200))", text)

    def caret(self, line):
        """Puts the caret on a line."""
        self.browser.run("const a = document.querySelector('#editor textarea'); a.focus();"
                         "const at = a.value.split('\\n').slice(0, given[0] - 1).join('\\n').length + (given[0] > 1 ? 1 : 0);"
                         "a.setSelectionRange(at, at); a.dispatchEvent(new Event('keyup'))", line)

    def press(self, button):
        """Presses a button, in a menu too, with no notice above it."""
        self.browser.run("document.querySelector('#notices').replaceChildren();"
                         "document.querySelector(given[0]).closest('.menu')?.setAttribute('open', '')", button)
        self.browser.click(button)

    def open(self, button, *files):
        """Opens files by a button, as what they are or as what the button is for."""
        self.press(button)
        self.browser.type("#chooser", "\n".join(map(str, files)))
        self.until("document.querySelector('#notices p') || document.querySelector('dialog[open]')")

    def file(self, name, data):
        """A file with some bytes or text."""
        path = self.folder / name
        path.write_bytes(data if isinstance(data, bytes) else data.encode())
        return path

    def notices(self):
        """What the page has told."""
        return self.browser.run("return [...document.querySelectorAll('#notices p')].map(p => p.innerText)")

    def answer(self, choice):
        """Answers the question that is asked."""
        self.until("document.querySelector('dialog[open]')")
        self.browser.click(f"#question button[value={choice}]")
        self.until("!document.querySelector('dialog[open]')")
        self.browser.run("await new Promise(done => setTimeout(done, 50))")  # who asked is told in a task of its own

    def saved(self, name):
        """The bytes of a file that the page has saved."""
        path = self.browser.downloads / name
        end = time.monotonic() + WAIT
        while not path.exists() or path.stat().st_size == 0:
            self.assertLess(time.monotonic(), end, f"{name} is not saved")
            time.sleep(0.02)
        time.sleep(0.05)
        return path.read_bytes()
