"""Every command that README and docs/USE.md show is run as it stands, in a folder that has the tree by links, and what they say that it
prints is printed; of a command that takes too long here, or needs an environment of its own, the test that runs it is named."""

import os
import re
import shutil
import subprocess
import tempfile
import unittest
from pathlib import Path

from tests.support import ROOT
from tests.support.documents.reading import FENCED, SPAN

DOCUMENTS = ("README.md", "docs/USE.md")
TREE = ("bin", "crates", "docs", "examples", "include", "tools", ".ci")
OUTSIDE = ("cc", "gcc", "pip", "python3", "rt", "cargo")  # programs that are not of the tree
PLACEHOLDERS = {"FILE": "examples/square.bin", "SET": "set.marks", "HALL": "hall", "PREFIX": "prefix", "COMMAND": "explain"}

# commands that are run elsewhere: the file that does it, and a text of it
ELSEWHERE = {
    "tools/page": ("tests/support/page/opened.py", 'subprocess.run([ROOT / "tools/page"], check=True)'),
    "tools/build": ("bin/mark", "tools/build"),
    "pip install .": ("tests/build/test_install.py", '"install", "--no-index", "--disable-pip-version-check", ROOT)'),
    ".ci/run": (".ci/run", "python3 -m unittest discover -s tests/build"),  # it runs this test
}
BARE = ("bin/mark", "bin/revosti")  # named, with no argument: a command waits for its input, or tells its use


def is_command(text):
    """Whether a code text is a command line: it begins with a program of the tree, or with another and an argument."""
    first, *rest = text.split()
    return first in OUTSIDE and bool(rest) or "/" in first and os.access(ROOT / first, os.X_OK) and (ROOT / first).is_file()


def commands(text):
    """The command lines of a document, in order: its code texts, and the lines of its blocks."""
    lines = [line for block in FENCED.findall(text) for line in block.split("\n")[1:-1]]
    return [found for found in [*SPAN.findall(FENCED.sub("", text)), *lines] if found.strip() and is_command(found)]


def printed(text):
    """The blocks of output that follow a command, each as (command, lines): the last command before the block."""
    place = 0
    for block in FENCED.finditer(text):
        before = [found for found in SPAN.findall(FENCED.sub("", text[place:block.start()])) if is_command(found)]
        if before and block[0].startswith("```\n"):
            yield before[-1], block[0].split("\n")[1:-1]
        place = block.end()


class Shown(unittest.TestCase):
    @classmethod
    def setUpClass(cls):
        cls.folder = Path(tempfile.mkdtemp())
        cls.addClassCleanup(shutil.rmtree, cls.folder)
        for name in TREE:
            (cls.folder / name).symlink_to(ROOT / name)

    def run_it(self, command):
        """Status, output and complaint of a command line; words in capitals stand for files and folders."""
        line = re.sub(r"\b[A-Z]{3,}\b", lambda word: PLACEHOLDERS.get(word[0], word[0]), command)
        more = {"PKG_CONFIG_PATH": str(self.folder / "prefix/lib/pkgconfig"), "PYTHONDONTWRITEBYTECODE": "1"}
        done = subprocess.run(["sh", "-c", line], cwd=self.folder, env={**os.environ, **more}, stdin=subprocess.DEVNULL,
                              capture_output=True, text=True, check=False)
        return done.returncode, done.stdout, done.stderr

    def faults(self, text):
        """What does not work of the commands of a text."""
        found = []
        for command in commands(text):
            if command in ELSEWHERE:
                file, words = ELSEWHERE[command]
                if words not in (ROOT / file).read_text(encoding="utf-8"):
                    found.append(f"{command}: not run by {file}")
            elif command not in BARE:
                status, _, told = self.run_it(command)
                found += [f"{command}: {told}"] if status else []
        for command, lines in printed(text):
            missing = set(lines) - set(self.run_it(command)[1].split("\n"))
            found += [f"{command}: does not print {line}" for line in lines if line in missing]
        return found

    def test_documents(self):
        for name in DOCUMENTS:
            with self.subTest(name):
                self.assertEqual(self.faults((ROOT / name).read_text(encoding="utf-8")), [])

    def test_the_five_ways_are_shown(self):
        start = (ROOT / "README.md").read_text(encoding="utf-8").partition("## Quick start")[2].partition("\n## ")[0]
        firsts = [command.split()[0] for command in commands(start)]
        self.assertLessEqual({"bin/mark", "tools/page", "bin/revosti", "python3", "tools/install", "cc"}, set(firsts))

    def test_the_program_of_c_runs(self):
        self.assertEqual(self.faults("`tools/install PREFIX` `cc examples/open_edges.c $(pkg-config --cflags --libs revosti)`"), [])
        self.run_it("bin/revosti fresh examples/square.tsp --marks c.marks")
        status, out, _ = self.run_it("LD_LIBRARY_PATH=prefix/lib ./a.out examples/square.tsp c.marks 1 2 3 4")
        self.assertEqual((status, out.split("\n")[-2]), (0, "the tour has length 40, all its edges are open"))

    def test_a_fault_is_told(self):
        for text in ("`bin/mark examples/none.bin`", "`bin/revosti unmark FILE`", "`python3 examples/none.py`", "`tools/install`",
                     "```\nbin/revosti explain examples/none.txt\n```", "`bin/mark examples/square.bin` prints\n\n```\nstruck 1 2\n```\n"):
            with self.subTest(text):
                self.assertEqual(len(self.faults(text)), 1)
        self.assertEqual(self.faults("`bin/mark examples/square.bin` prints\n\n```\nstruck 1 3\n```\n"), [])

    def test_what_is_a_command(self):
        self.assertEqual(commands("`mark`, `bin/mark A`, `rt`, `rt check`, `docs/USE.md`, `1-2 is open`"), ["bin/mark A", "rt check"])
