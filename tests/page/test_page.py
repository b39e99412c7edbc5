"""The page as a file: what tools/page lets through and what it refuses, and what the page's own policy stops."""

import shutil
import subprocess
import unittest
from importlib.machinery import SourceFileLoader
from importlib.util import module_from_spec, spec_from_loader
from urllib.parse import unquote

from tests.support import ROOT
from tests.support.page.opened import PageTest

HEAD = """<meta http-equiv="Content-Security-Policy" content="default-src 'none'; script-src data:">"""
ONE = {"revosti/one": "export const one = 1;\n"}


def load(path):
    """A program of the tree as a module."""
    spec = spec_from_loader(path.name, SourceFileLoader(path.name, str(path)))
    module = module_from_spec(spec)
    spec.loader.exec_module(module)
    return module


TOOL = load(ROOT / "tools/page")


class Inspected(unittest.TestCase):
    """The build's own test that the page is one file which reaches no network."""

    def refused(self, text, modules=None):
        """What is said of a page, nothing where it is let through."""
        try:
            TOOL.inspect(text, modules or ONE)
        except TOOL.Faulty as fault:
            return str(fault).partition(": ")[2]
        return ""

    def test_what_is_let_through(self):
        for body in ("", "<a href='#top'>top</a>", "<img src='data:image/png;base64,AAAA'>", "<a href>none</a>",
                     "<style>a { background: url(data:image/png;base64,AAAA); mask: url('#m'); }</style>"):
            self.assertEqual(self.refused(HEAD + body), "")
        self.assertEqual(self.refused(HEAD, {**ONE, "revosti/two": 'import { one } from "revosti/one";\nimport("revosti/one");\n'}), "")

    def test_what_lies_outside(self):
        for body, fault in (("<script src='main.js'></script>", "<script src='main.js'>"),
                            ("<link rel=stylesheet href=style.css>", "<link href='style.css'>"),
                            ("<img src='https://example.org/x.png'>", "<img src='https://example.org/x.png'>"),
                            ("<a href='//example.org/'>x</a>", "<a href='//example.org/'>"),
                            ("<form action='/send'></form>", "<form action='/send'>"),
                            ("<svg><use xlink:href='x.svg#a'></use></svg>", "<use xlink:href='x.svg#a'>"),
                            ("<style>@import 'x.css';</style>", "@import"), ("<style>a { background: url(x.png) }</style>", "url(")):
            self.assertEqual(self.refused(HEAD + body), fault)

    def test_modules_that_reach_out(self):
        for text, fault in (('import "other";', "imports other"), ("import x from './one.js';", "imports ./one.js"),
                            ('const x = await import("https://example.org/");', "imports https://example.org/"),
                            ('export { x } from "x";', "imports x"), ("fetch(x);", "has fetch"), ("new WebSocket(x);", "has WebSocket"),
                            ("navigator.sendBeacon(x);", "has sendBeacon"), ("new RTCPeerConnection();", "has RTCPeerConnection")):
            self.assertEqual(self.refused(HEAD, {"revosti/two": text}), f"revosti/two {fault}")

    def test_a_page_without_a_policy(self):
        for head in ("", HEAD + HEAD, HEAD.replace("'none'", "'self'"), HEAD.replace("default-src", "img-src")):
            self.assertEqual(self.refused(head), "no policy")

    def test_marks_of_the_template(self):
        self.assertEqual(TOOL.filled("a {{b}} c", {"b": "{{x}}"}), "a {{x}} c")
        for template in ("a c", "a {{b}} {{b}}", "a {{b}} {{c}}"):
            with self.assertRaises(TOOL.Faulty):
                TOOL.filled(template, {"b": ""})

    def test_a_text_in_an_address(self):
        text = "".join(map(chr, range(1, 400))) + "</script><!-- 100 % # \"'\\ "
        address = TOOL.data_url(text)
        self.assertNotRegex(address, r'["<>#\\\n\t]|[^ -~]')
        self.assertEqual(unquote(address.partition(",")[2]), text)

    def test_bad_use(self):
        self.assertEqual(subprocess.run([ROOT / "tools/page", "more"], capture_output=True).returncode, 2)


class Policy(PageTest):
    """What the browser says of a page that does more than it may."""

    STOPPED = "violates the following Content Security Policy directive"

    def stops(self, script):
        """Whether the policy stops a script of the page from what it tries."""
        self.browser.run(script + "; await new Promise((done) => setTimeout(done, 100));")
        said = self.browser.log()
        self.browser.requests()
        return bool(said) and all(self.STOPPED in line["message"] or "Refused to connect" in line["message"] for line in said)

    def silent(self):
        self.assertEqual(self.browser.log(), [])

    def test_what_it_stops(self):
        for script in ('await fetch("http://127.0.0.1:1/").catch(() => 0)', 'new Image().src = "http://127.0.0.1:1/x.png"',
                       'document.body.append(Object.assign(document.createElement("script"), { textContent: "1" }))',
                       'document.body.append(Object.assign(document.createElement("script"), { src: "file:///none.js" }))',
                       'document.body.append(Object.assign(document.createElement("style"), { textContent: "a { color: red }" }))',
                       'document.body.append(Object.assign(document.createElement("iframe"), { src: "http://127.0.0.1:1/" }))',
                       'try { new WebSocket("ws://127.0.0.1:1/") } catch {}'):
            with self.subTest(script):
                self.assertTrue(self.stops(script))

    def test_its_foot(self):
        text = self.browser.run("return document.querySelector('footer').textContent")
        kit = subprocess.run([shutil.which("rt") or "/opt/rattle/bin/rt", "version"], capture_output=True, text=True, check=True).stdout
        for part in (TOOL.commit(), kit.strip(), "logic=proved functions="):
            self.assertIn(part, text)
