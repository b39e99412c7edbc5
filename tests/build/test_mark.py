"""bin/mark: what it prints, its exit status, and what it says where it cannot run. The program is a stand-in with a
given answer."""

import os
import subprocess
import sys
import tempfile
import unittest
from pathlib import Path

from tests.support import ROOT
from tests.support.build import LIMIT

ACCEPTED = "points 4 edges 6\nstruck 1 3\nverdict 0 record 0 open 5\n"
REFUSED = "points 4 edges 6\nverdict 14 record 1 open 6\n"
UNREAD = "verdict 1 record 0 open 0\n"
HINT = "mark: the input looks like a text; mark reads the binary form, which 'revosti pack' makes of it\n"


class Mark(unittest.TestCase):
    """An installed mark: its program stands beside it."""

    def setUp(self):
        holder = tempfile.TemporaryDirectory()
        self.addCleanup(holder.cleanup)
        self.folder = Path(holder.name)
        self.launcher = self.folder / "mark"
        self.launcher.write_bytes((ROOT / "bin/mark").read_bytes())
        self.launcher.chmod(0o755)
        self.answers(ACCEPTED)

    def answers(self, text, status=0):
        """Lets the program keep what it reads and answer so."""
        program = self.folder / "mark-program"
        program.write_text(f"#!/bin/sh\ncat >{self.folder}/read\ncat <<'END'\n{text}END\nexit {status}\n")
        program.chmod(0o755)

    def mark(self, *words, data=b"\0sheet", **more):
        """Status, output and words of a call; no copy of the input is left."""
        (self.folder / "room").mkdir(exist_ok=True)
        if "stdin" not in more:
            more["input"] = data
        more.setdefault("stdout", subprocess.PIPE)
        run = subprocess.run([self.launcher, *words], stderr=subprocess.PIPE, check=False,
                             env={**os.environ, "TMPDIR": str(self.folder / "room")}, **more)
        self.assertEqual(list((self.folder / "room").iterdir()), [])
        return run.returncode, (run.stdout or b"").decode(), run.stderr.decode()

    def shell(self, line):
        """The same of a line of shell, with the launcher as $0."""
        run = subprocess.run(["sh", "-c", line, self.launcher], capture_output=True, text=True, check=False)
        return run.returncode, run.stdout, run.stderr

    def test_accepted(self):
        self.assertEqual(self.mark(), (0, ACCEPTED, ""))
        self.assertEqual((self.folder / "read").read_bytes(), b"\0sheet")

    def test_refused(self):
        self.answers(REFUSED)
        self.assertEqual(self.mark(), (1, REFUSED, ""))

    def test_a_file(self):
        for name in ("a.sheet", "a b.sheet", "é"):
            (self.folder / name).write_bytes(b"of a file\0")
            self.assertEqual(self.mark(self.folder / name), (0, ACCEPTED, ""))
            self.assertEqual((self.folder / "read").read_bytes(), b"of a file\0")

    def test_long_input_is_cut_where_it_is_refused(self):
        self.mark(data=b"\0" * 70_000)
        self.assertEqual((self.folder / "read").stat().st_size, 65_449)
        self.mark(data=b"\0" * 65_448)
        self.assertEqual((self.folder / "read").stat().st_size, 65_448)

    def test_long_answer(self):
        lines = "".join(f"struck {a} {b}\n" for a in range(1, 181) for b in range(a + 1, 181))
        text = f"points 180 edges 16110\n{lines}verdict 0 record 0 open 0\n"
        self.answers(text)
        self.assertEqual(self.mark(), (0, text, ""))

    def test_a_text(self):
        self.answers(UNREAD)
        for data in (b"rule 1\npoints 4\n\t# \xc3\xa9 \xe9\r\n", "rule 1\n".encode("utf-16")[:2] + b"rule"):
            self.assertEqual(self.mark(data=data), (1, UNREAD, HINT))
        for data in (b"", b"rule 1\npoints 4\0", b"\1\0\0\0rule"):
            self.assertEqual(self.mark(data=data), (1, UNREAD, ""))
        self.answers(REFUSED)
        self.assertEqual(self.mark(data=b"rule 1\n"), (1, REFUSED, ""))

    def test_help(self):
        for word in ("--help", "-h"):
            status, out, told = self.mark(word)
            self.assertEqual((status, told), (0, ""))
            self.assertTrue(out.startswith("usage: mark [FILE]\n"))
            self.assertIn("Exit status: 0 accepted, 1 refused, 2 bad use, 3 it could not run.", out)

        self.assertEqual(self.shell('"$0" --help >/dev/full'), (3, "", "mark: the help cannot be written\n"))

    def test_bad_use(self):
        self.assertEqual(self.mark("--fast"), (2, "", "mark: there is no option --fast; usage: mark [FILE]\n"))
        self.assertEqual(self.mark("a", "b"), (2, "", "mark: one file at a time; usage: mark [FILE]\n"))

    def test_input_that_cannot_be_read(self):
        self.assertEqual(self.mark("none"), (3, "", "mark: there is no file none\n"))
        self.assertEqual(self.mark(self.folder), (3, "", f"mark: {self.folder} is a folder\n"))
        self.assertEqual(self.shell('"$0" </'), (3, "", "mark: error reading 'standard input': Is a directory\n"))
        self.assertEqual(self.shell('"$0" <&-'), (3, "", "mark: standard input is closed\n"))

    def test_output_that_cannot_be_written(self):
        with open("/dev/full", "wb") as full:
            self.assertEqual(self.mark(stdout=full), (3, "", "mark: the answer cannot be written\n"))
        self.assertEqual(self.shell('"$0" <"$0" >&-'), (3, "", "mark: standard output is closed\n"))

    def test_no_room_for_a_copy(self):
        run = subprocess.run([self.launcher], input=b"", capture_output=True, check=False, env={**os.environ, "TMPDIR": "/nowhere"})
        self.assertEqual((run.returncode, run.stdout), (3, b""))
        self.assertTrue(run.stderr.endswith(b"mark: there is no room for a copy of the input\n"))
        words = [sys.executable, "-c", LIMIT, "3", self.launcher]
        run = subprocess.run(words, input=b"\0sheet", capture_output=True, check=False)
        self.assertEqual((run.returncode, run.stdout), (3, b""))
        self.assertRegex(run.stderr.decode(), r"\Amark: .*: File too large\n\Z")

    def test_the_program_fails(self):
        self.answers(ACCEPTED, status=4)
        self.assertEqual(self.mark(), (3, "", "mark: the program fails\n"))
        for text in ("", "points 4 edges 6\n", "verdict x record 0 open 0\n", ACCEPTED + "more\n"):
            self.answers(text)
            self.assertEqual(self.mark(), (3, "", "mark: the program gives no verdict\n"))


class Built(unittest.TestCase):
    """The program itself, on 01's example and on those of examples/."""

    def test_examples(self):
        wanted = {"square": 0, "case_missing": 14, "coordinate_too_large": 4, "coordinates_cut": 7, "header_cut": 7, "index_not_above": 9,
                  "no_records": 7, "point_moved": 14, "record_broken": 7, "rule_6": 3, "stretch": 0, "stretch_not_shorter": 24,
                  "stretch_point_twice": 23, "three_points": 1}
        self.assertEqual(set(wanted), {file.stem for file in (ROOT / "examples").glob("*.bin")})
        for name, number in wanted.items():
            run = subprocess.run([ROOT / "bin/mark", ROOT / f"examples/{name}.bin"], capture_output=True, text=True, check=False)
            self.assertEqual((run.returncode, run.stdout.split()[-6:-4]), (int(number > 0), ["verdict", str(number)]), name)

    def test_square(self):
        with open(ROOT / "examples/square.bin", "rb") as square:
            run = subprocess.run([ROOT / "bin/mark"], stdin=square, stdout=subprocess.PIPE, check=False)
        self.assertEqual((run.returncode, run.stdout),
                         (0, b"points 4 edges 6\nstruck 1 3\nstruck 2 4\nverdict 0 record 0 open 4\n"))
