"""The command itself: files, pipes, exit status, kinds of file."""

import subprocess
import unittest

from tests.support.command import NINE, PROGRAM, SQUARE_HEAD, SQUARE_RECORDS, Folder, Run, binary

from revosti_command.options import is_text

TEXT = SQUARE_HEAD + "strike 1-3, split at 2\nstrike 2-4, split at 1\n"


class Command(Folder):
    def test_program(self):
        command = [PROGRAM]
        packed = subprocess.run(command + ["pack"], input=TEXT.encode(), capture_output=True, check=True)
        self.assertEqual(packed.stdout, binary(SQUARE_RECORDS))
        back = subprocess.run(command + ["unpack"], input=packed.stdout, capture_output=True, check=True)
        self.assertEqual(back.stdout.decode(), TEXT)
        bad = subprocess.run(command + ["pack"], input=b"x", capture_output=True, check=False)
        self.assertEqual((bad.returncode, bad.stdout), (2, b""))

    def test_program_can_be_started_by_name(self):
        self.assertTrue(PROGRAM.stat().st_mode & 0o111)

    def test_files(self):
        source, out = self.folder / "a.txt", self.folder / "a.sheet"
        source.write_text(TEXT)
        self.assertEqual(Run("pack", source, "-o", out).status, 0)
        self.assertEqual(out.read_bytes(), binary(SQUARE_RECORDS))
        self.assertEqual(Run("unpack", out).text, TEXT)

    def test_bad_text_leaves_the_file(self):
        out = self.folder / "a.sheet"
        out.write_bytes(b"old")
        run = Run("pack", "-o", out, data=b"rule 1\n")
        self.assertEqual((run.status, out.read_bytes()), (2, b"old"))

    def test_error_names_the_file(self):
        source = self.folder / "a.txt"
        source.write_text("rule 1\npoints 0\nstrike\n")
        run = Run("pack", source)
        self.assertEqual(run.err, f"revosti: {source}, line 3, column 7: "
                                  "expected a point, found the end of the line\n")

    def test_missing_file(self):
        run = Run("unpack", self.folder / "none")
        self.assertEqual((run.status, run.out), (3, b""))
        self.assertIn("No such file", run.err)

    def test_bad_use(self):
        for arguments in ((), ("paint",), ("pack", "--tour", "1"), ("explain", "--marks"), ("draw", "--form", "x"), ("ask",),
                          ("confirm", "x"), ("convert", "--marks", "x"), ("convert", "x"), ("convert", "x", "--to", "tsplib"), ("saving",),
                          ("saving", "x", "--marks", "x", "move", 3, 1, 4, 1, 2), ("slip", "--number"), ("tour", "x"), ("edges",),
                          ("pairs",), ("pairs", "x", 1, 2, 3, 4), ("ask", "--high", "x", "--marks", "x"), ("board", "--scale", 0),
                          ("board", "--scale", "x"), ("confirm", "--mark", "x"), ("draw", "--without", "holes"), ("cut", "x", "--marks", "x")):
            run = Run(*arguments)
            self.assertEqual((run.status, run.out), (2, b""), arguments)
            self.assertIn("usage: revosti", run.err)
        for arguments in (("pairs", "x", 1, 2), ("pairs", "x"), ("pairs", "x", 1, 2, 3, "--record", 1)):
            self.assertEqual(Run(*arguments).all, (2, "", "revosti: pairs: expected either A B C or --record NUMBER\n"))

    def test_numbers(self):
        self.assertIn("# 71", Run("unpack", "-n", data=Run("pack", NINE).out).text)

    def test_byte_order_mark_and_other_letters_in_comments(self):
        text = b"\xef\xbb\xbf# br\xc3\xbccke \xff\n" + TEXT.encode()
        self.assertEqual(Run("pack", data=text).out, binary(SQUARE_RECORDS))

    def test_broken_letters_outside_comments(self):
        run = Run("pack", data=b"rule \xff")
        self.assertEqual(run.status, 2)
        self.assertIn("line 1, column 6: expected a rule", run.err)


class Forms(unittest.TestCase):
    def test_is_text(self):
        for data, wanted in ((b"", False), (TEXT.encode(), True), (b"rul 1", True),
                             (binary(SQUARE_RECORDS), False), (b"# \xc3\xbc\r\n\trule", True),
                             (b"rule \xff", True), (b"rule\0", False), (b"\x1b[0m", False)):
            self.assertEqual(is_text(data), wanted, data)
