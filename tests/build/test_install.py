"""tools/install into a folder and `pip install .` into a fresh environment, without a network, and the examples from
there."""

import os
import shutil
import subprocess
import sys
import tempfile
import unittest
from pathlib import Path

from tests.support import ROOT

import revosti

SQUARE = "1-2 is open, length 10\n1-4 is open, length 10\n2-3 is open, length 10\n3-4 is open, length 10\n"
MARKED = "points 4 edges 6\nstruck 1 3\nstruck 2 4\nverdict 0 record 0 open 4\n"
STRICT = ("-O2", "-Wall", "-Wextra", "-Wpedantic", "-Werror", "-std=c11")
COMMAND = (ROOT / "tools/revosti_command").is_dir()


def run(*words, cwd="/", **more):
    """Status, output and words of a command, which has no network and knows nothing of this repository."""
    env = {name: value for name, value in os.environ.items() if not name.startswith(("PYTHON", "REVOSTI", "PIP_"))}
    done = subprocess.run(words, cwd=cwd, env={**env, **more}, capture_output=True, text=True, check=False)
    return done.returncode, done.stdout, done.stderr


class Folder(unittest.TestCase):
    @classmethod
    def setUpClass(cls):
        cls.folder = Path(tempfile.mkdtemp())
        cls.addClassCleanup(shutil.rmtree, cls.folder)
        made = cls.folder / "made here"
        for _ in range(2):  # a second time over the first
            done = run(ROOT / "tools/install", made)
            assert done == (0, "", ""), done
            (made / "lib/revosti/tools/revosti/old.py").touch()
        run(ROOT / "tools/install", made)
        cls.prefix = made.rename(cls.folder / "prefix")  # the folder can be moved
        (cls.folder / "square.marks").write_bytes(cls.square())

    @staticmethod
    def square():
        """The marks of the square after its sheet."""
        marks = revosti.fresh_marks(4)
        table = revosti.read_tsplib((ROOT / "examples/square.tsp").read_bytes()).table
        revosti.mark_sheet(4, table, marks, [[1, 1, 3, 0, 0, 2, 0, 2], [1, 2, 4, 0, 0, 1, 0, 0]])
        return marks

    def config(self, *words):
        """What pkg-config says."""
        status, out, told = run("pkg-config", *words, "revosti", PKG_CONFIG_PATH=str(self.prefix / "lib/pkgconfig"))
        self.assertEqual((status, told), (0, ""))
        return out.split()

    def compiled(self, example, *libraries):
        """The program of an example."""
        program = self.folder / example
        words = ("gcc", *STRICT, ROOT / f"examples/{example}.c", *self.config("--cflags"), *libraries, "-o", program)
        self.assertEqual(run(*words), (0, "", ""))
        return program

    def test_files(self):
        names = {str(file.relative_to(self.prefix)) for file in self.prefix.rglob("*") if not file.is_dir()}
        self.assertLessEqual({"include/revosti.h", "lib/librevosti.a", "lib/librevosti.so", "lib/pkgconfig/revosti.pc", "bin/mark"}, names)
        self.assertEqual([name for name in names if "__pycache__" in name or "old" in name], [])

    def test_version(self):
        self.assertEqual(self.config("--modversion"), [revosti.__version__])

    def test_examples_with_the_shared_object(self):
        program = self.compiled("open_edges", *self.config("--libs"))
        done = run(program, ROOT / "examples/square.tsp", self.folder / "square.marks", *"1234", LD_LIBRARY_PATH=str(self.prefix / "lib"))
        self.assertEqual(done, (0, SQUARE + "the tour has length 40, all its edges are open\n", ""))

    def test_examples_with_the_archive(self):
        self.assertEqual(run(self.compiled("solver", self.prefix / "lib/librevosti.a"))[0], 0)
        program, marks = self.compiled("open_edges", self.prefix / "lib/librevosti.a"), self.folder / "square.marks"
        self.assertEqual(run(program, ROOT / "examples/square_weights.tsp", marks, *"1324"),
                         (1, SQUARE + "the tour has length 48, and a struck edge\n", ""))
        wide = self.folder / "wide.tsp"
        wide.write_text("DIMENSION : 181\nEDGE_WEIGHT_TYPE : ATT\nNODE_COORD_SECTION\n"
                        + "".join(f"{point} 0 0\n" for point in range(1, 182)) + "EOF\n")
        for words, number in (((ROOT / "examples/square.tsp", marks, *"1123"), 17), ((ROOT / "examples/square.tsp", marks), 17),
                              ((ROOT / "examples/square.tsp", marks, *"123", "260"), 17), ((ROOT / "README.md", marks, *"1234"), 19),
                              ((ROOT / "examples/square.tsp", ROOT / "examples/square.tsp", *"1234"), 6), ((wide, marks, *"1234"), 1)):
            status, out, told = run(program, *words)
            self.assertEqual((status, out, told.split(":")[-1]), (1, "", f" refused, number {number}\n"), words)
        for words in ((self.folder / "none", marks), (self.folder, marks), (ROOT / "examples/square.tsp", "/dev/zero")):
            self.assertEqual(run(program, *words)[:2], (3, ""))
        self.assertEqual(run(program)[:2], (2, ""))

    def test_mark(self):
        self.assertEqual(run(self.prefix / "bin/mark", ROOT / "examples/square.bin"), (0, MARKED, ""))

    def test_python(self):
        program = (ROOT / "examples/open_edges.py").read_text(encoding="utf-8").replace('sys.path[0] + "/../tools"', 'sys.argv[1]')
        self.assertEqual(run(sys.executable, "-B", "-c", program, self.prefix / "lib/revosti/tools"), (0, SQUARE, ""))

    @unittest.skipUnless(COMMAND, "there is no command yet")
    def test_the_command(self):
        status, out, told = run(self.prefix / "bin/revosti", "pairs", ROOT / "examples/square.bin", *"123")
        self.assertEqual((status, told), (0, ""))
        self.assertIn("pair 1-4\npair 2-4\n", out)

    def test_bad_use(self):
        for words in ((), ("",), ("a", "b"), ("--help",)):
            self.assertEqual(run(ROOT / "tools/install", *words, cwd=self.folder), (2, "", "usage: tools/install PREFIX\n"))


class Pip(unittest.TestCase):
    @classmethod
    def setUpClass(cls):
        cls.folder = Path(tempfile.mkdtemp())
        cls.addClassCleanup(shutil.rmtree, cls.folder)
        subprocess.run([sys.executable, "-m", "venv", cls.folder / "fresh"], check=True)
        done = run(cls.folder / "fresh/bin/pip", "install", "--no-index", "--disable-pip-version-check", ROOT)
        assert done[0] == 0, done

    def python(self, program, **more):
        """What a program prints in that environment."""
        return run(self.folder / "fresh/bin/python", "-c", program, **more)

    def test_it_is_the_installed_one(self):
        program = "import revosti; from revosti import library; print(revosti.__version__, revosti.__file__, library.shared_object())"
        status, out, told = self.python(program)
        version, module, shared = out.split()
        self.assertEqual((status, told, version), (0, "", revosti.__version__))
        for file in (module, shared):
            self.assertIn(self.folder.resolve(), Path(file).resolve().parents)

    def test_the_example(self):
        program = (ROOT / "examples/open_edges.py").read_text(encoding="utf-8")
        self.assertEqual(self.python(program), (0, SQUARE, ""))

    def test_a_shared_object_that_is_named(self):
        named = str(self.folder / "named.so")
        shutil.copy(ROOT / "target/librevosti.so", named)
        program = "from revosti import library; print(library.library()._name)"
        self.assertEqual(self.python(program, REVOSTI_SHARED=named), (0, named + "\n", ""))

    def test_types_and_metadata(self):
        program = ("import importlib.metadata as m, importlib.resources as r\n"
                   "print(m.version('revosti'), r.files('revosti').joinpath('py.typed').is_file())")
        self.assertEqual(self.python(program), (0, f"{revosti.__version__} True\n", ""))
        self.assertEqual(run(self.folder / "fresh/bin/pip", "check", "--disable-pip-version-check")[0], 0)

    @unittest.skipUnless(COMMAND, "there is no command yet")
    def test_the_command(self):
        status, out, told = run(self.folder / "fresh/bin/revosti", "pairs", ROOT / "examples/square.bin", *"123")
        self.assertEqual((status, told), (0, ""))
        self.assertIn("pair 1-4\npair 2-4\n", out)
