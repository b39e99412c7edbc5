"""Every name and path that the documents put between backquotes exists, and a name stands in the file that is given for it."""

import re
import unittest

from tests.support import ROOT as TOP
from tests.support.documents.reading import COMMANDED, LINK, anchors, beside, blocks, defining, rows, spans, within, words
from tests.support.documents.tree import OTHERS, Tree

TREE = Tree(TOP)
COMMANDS = set().union(*(names for path, names in TREE.declared.items() if TOP / "tools" in path.parents))
PROGRAM = next(program for program in COMMANDED if (TOP / program).exists())
WHOLE = ("README.md", "CONTRIBUTING.md", "docs/USE.md", "docs/STATEMENTS.md", "docs/DECISIONS.md", "docs/RULES.md", "docs/FORMATS.md")
HISTORY = ("docs/CHANGES.md", "docs/FIGURES.md")  # of what has been, the names may be gone


class Reader:
    """What a document says that is not so."""

    def __init__(self, text, folder):
        self.text, self.folder, self.faults = text, folder, []
        self.heading, self.folders = None, []

    def fault(self, *words):
        self.faults.append(" ".join(map(str, words)))

    def places(self, path):
        """Where a path leads. A bare file name is one in a folder that was named before under the same heading."""
        places = TREE.places(path, self.folders)
        if not places:
            self.fault("no path", path)
        folders = [p if p.is_dir() else p.parent for p in places]
        self.folders = folders + [f for f in self.folders if f not in folders]
        return places

    def say(self, kind, word):
        known = {"name": TREE.names, "option": TREE.names, "command": COMMANDS}
        if kind == "path":
            self.places(word)
        elif word not in known[kind]:
            self.fault("no", kind, word)

    def pair(self, name, places):
        if places and name not in OTHERS and not any(TREE.declares(place, name) for place in places):
            self.fault("no name", name, "in", *(p.relative_to(TOP) for p in places))

    def read(self):
        """The faults of links, names, paths, and names beside their files."""
        for link in LINK.findall(self.text):
            file, _, heading = link.partition("#")
            if not (self.folder / file).exists():
                self.fault("no path", link)
            elif heading and heading not in anchors((self.folder / file).read_text(encoding="utf-8") if file else self.text):
                self.fault("no heading", link)
        for heading, block in blocks(self.text):
            if heading != self.heading:
                self.heading, self.folders = heading, []
            found = spans(block)
            for i in range(len(found)):
                self.read_span(found, i)
        for row in rows(self.text):
            self.read_row(row)
        return self.faults

    def read_span(self, found, i):
        """The code text at place i of a block."""
        span = found[i]
        if span.is_path:
            places = self.places(span.text)
            for name in beside(found, i):
                self.pair(name, places)
        elif span.is_name:
            self.say("name", span.text)
            crate = TOP / "crates" / span.text
            for name in within(found, i) if crate in TREE.crates else ():
                self.pair(name, [crate])
        else:
            for kind, word in words(span.text):
                self.say(kind, word)

    def read_row(self, row):
        """A row of a table: what its files are given for."""
        names, files = defining(row)
        self.folders = []
        places = [place for span in files if span.is_path for place in self.places(span.text)]
        for span in names:
            if span.is_name:
                self.pair(span.text, places)


def faults(text, folder=TOP):
    """What a text says that is not so, in a document of this folder."""
    return Reader(text, folder).read()


def faults_of(document):
    """What a document says that is not so."""
    path = TOP / document
    return faults(path.read_text(encoding="utf-8"), path.parent)


class Documents(unittest.TestCase):
    """The documents as they are."""

    def test_names_and_paths(self):
        for document in WHOLE:
            with self.subTest(document):
                self.assertEqual(faults_of(document), [])

    def test_layers_name_every_crate(self):
        layers = (TOP / "README.md").read_text(encoding="utf-8").partition("## The layers")[2].partition("\n## ")[0]
        self.assertEqual([crate.name for crate in TREE.crates if f"`{crate.name}`" not in layers], [])

    def test_second_program_names_its_modules(self):
        source, text = TOP / "second/src", (TOP / "second/README.md").read_text(encoding="utf-8")
        rows = {row.split("`")[1].removesuffix("*.rs"): row for row in text.split("\n") if row.startswith("| `src/")}
        for folder in (source, source / "bin", *(path for path in (source / "kit").iterdir() if path.is_dir())):
            row = rows[f"{folder.relative_to(source.parent)}/"]
            modules = {file.stem for file in folder.glob("*.rs")} | {file.parent.name for file in folder.glob("*/mod.rs")}
            self.assertEqual([name for name in modules - {"lib", "mod", "kit"} if f"`{name}`" not in row], [], folder)

    def test_paths_of_history(self):
        for document in HISTORY:
            with self.subTest(document):
                self.assertEqual([fault for fault in faults_of(document) if fault.startswith("no path")], [])


class Told(unittest.TestCase):
    """Made-up texts: what is not so is told, and nothing else."""

    def test_what_is_there(self):
        for text in ("`three-opt`", "`demand_3`", "`place`", "`Sheet::MOST_RECORDS`", "`Refusal::Page`", "`revosti_mark_of`", "`REVOSTI_OPEN`",
                     "`mark_of`", "`marking`", "`says_18_unseen`", "`marking/says_18_unseen`", "`lengths/specs/Edge.antt`",
                     "`specs/asks/`", "`bin/mark`", "`target/made.a`", f"`{PROGRAM} mark FILE --high BOARD`", "`marks_of n set`",
                     "`mark_sheet(n, table, marks, sheet)`", "`1 1 3 0 0 2 0 2`", "`points 4 edges 6`", "```\n`no-such`\n```",
                     "`place` (`lengths/specs/Edge.antt`)", "`lengths/specs/Edge.antt`: `tri`, `place`",
                     "[terms](docs/RULES.md#terms)", "# A part\n[it](#a-part)"):
            with self.subTest(text):
                self.assertEqual(faults(text), [])

    def test_what_is_not(self):
        for text, fault in (("`three-opts`", "no name three-opts"), ("`Sheet::MOST_LINES`", "no name Sheet::MOST_LINES"),
                            ("`revosti_mark_off`", "no name revosti_mark_off"), ("`says_19_unseen`", "no name says_19_unseen"),
                            ("`-packed`", "no option -packed"), (f"`{PROGRAM} unmark FILE`", "no command unmark"),
                            (f"`{PROGRAM} mark --middle A`", "no option --middle"), ("`mark_sheets(n)`", "no name mark_sheets"),
                            ("`packedBy n set`", "no name packedBy"), ("`lengths/specs/Edges.antt`", "no path lengths/specs/Edges.antt"),
                            ("`rules/says_18_unseen`", "no path rules/says_18_unseen"), ("`Edge.antt`", "no path Edge.antt"),
                            ("`bin/mark examples/none.bin`", "no path examples/none.bin"), ("[rules](RULES.md)", "no path RULES.md"),
                            ("[terms](docs/RULES.md#term)", "no heading docs/RULES.md#term")):
            with self.subTest(text):
                self.assertEqual(faults(text), [fault])

    def test_a_name_in_another_file(self):
        table = "no name place in crates/lengths/specs/Table.antt"
        for text in ("`place` (`lengths/specs/Table.antt`)", "`length_of`, **`place`** (`lengths/specs/Table.antt`)",
                     "`lengths/specs/Table.antt`: `place`", "`lengths/specs/Table.antt`, `length_of` and `place`",
                     "`lengths/specs/` has it (`place`, `Table.antt`)",
                     "| Definition | File |\n|---|---|\n| `place` | `lengths/specs/Table.antt` |"):
            with self.subTest(text):
                self.assertEqual(faults(text), [table])

    def test_a_name_in_another_crate(self):
        self.assertEqual(faults("`rules`: `compatible_strictly`; `sets`: `cycle_of_n_edges`"), [])
        self.assertEqual(faults("`rules`: `compatible_strictly`, `cycle_of_n_edges`"), ["no name cycle_of_n_edges in crates/rules"])

    def test_a_bare_file_is_of_a_folder_before(self):
        self.assertEqual(faults("# A\n`lengths/specs/Edge.antt`, then `Table.antt`"), [])
        self.assertEqual(faults("# A\n`lengths/specs/Edge.antt`\n# B\n`Table.antt`"), ["no path Table.antt"])
