"""Standard streams that are closed, full or cut off, Ctrl-C, letters of other encodings, and the exit status of every
command."""

import os
import signal
import subprocess
import time

from tests.support import EXAMPLES
from tests.support.command import PROGRAM, SQUARE_HEAD, SQUARE_RECORDS, Folder, Run, binary, start
from tests.support.packing import packed

SQUARE, SHEET = EXAMPLES / "square.tsp", EXAMPLES / "square.txt"
LINES = "strike 1-3, split at 2\nstrike 2-4, split at 1\n"
STOPS = binary([(1, 1, 2, 0, 0, 3, 0, 0)])


def shell(words, **more):
    """Status, output and complaint of a line for the shell, in which R is the command."""
    run = subprocess.run(["sh", "-c", words], capture_output=True, check=False, env={**os.environ, "R": str(PROGRAM)}, **more)
    return run.returncode, run.stdout.decode(), run.stderr.decode()


class Streams(Folder):
    def test_closed(self):
        for words, said in (("$R explain <&-", "standard input: it is closed"), (f"$R pages {SQUARE} >&-", "standard output: it is closed"),
                            (f"$R pages {SQUARE} >/dev/full", "standard output: No space left on device"),
                            ("$R --help >/dev/full", "standard output: No space left on device"),
                            (f"$R pages {EXAMPLES}", f"{EXAMPLES}: Is a directory"),
                            (f"$R pages - <{EXAMPLES}", "standard input: Is a directory"),
                            (f"$R pages {EXAMPLES} </dev/null", f"{EXAMPLES}: Is a directory"),
                            (f"$R pages {SQUARE} -o /dev/full", "/dev/full: No space left on device")):
            self.assertEqual(shell(words), (3, "", f"revosti: {said}\n"), words)

    def test_no_end(self):
        for words, name in (("$R explain /dev/zero", "/dev/zero"), ("$R unpack </dev/zero", "standard input"),
                            (f"$R pages {SQUARE} --marks /dev/zero", "/dev/zero")):
            status, out, said = shell(words)
            self.assertEqual((status, out), (2, ""))
            self.assertTrue(said.endswith(f"revosti: {name}: longer than 67,108,864 bytes, which nothing is that is read here\n"), said)

    def test_a_set_has_a_name(self):
        for name in ("-", "''"):
            status, _, said = shell(f"$R withdraw --marks {name}")
            self.assertEqual(status, 2)
            self.assertIn("expected the name of a file, found", said)

    def test_nobody_is_told(self):
        self.assertEqual(shell(f"$R pages {SQUARE} >&- 2>&-"), (3, "", ""))
        self.assertEqual(shell("$R pack nowhere 2>&-"), (3, "", ""))

    def test_nobody_reads(self):
        board = EXAMPLES / "board-180.sheet"
        run = start("pages", board)
        run.stdout.close()
        self.assertEqual((run.wait(), run.stderr.read()), (3, b""))
        run.stderr.close()

    def test_a_set_that_is_changed_is_told(self):
        marks = self.folder / "a.marks"
        status, _, said = shell(f"$R fresh {SQUARE} --marks {marks} >/dev/full")
        self.assertEqual((status, said), (3, f"revosti: standard output: No space left on device; {marks} is changed\n"))
        status, _, said = shell(f"$R ask --board {SQUARE} {SHEET} --marks {marks} >&-")
        self.assertEqual((status, said), (3, f"revosti: standard output: it is closed; {marks} is changed\n"))
        self.assertEqual(marks.read_bytes(), packed([1, 2, 1, 1, 2, 1]))

    def test_stopped(self):
        run = start("explain", stdin=subprocess.PIPE)
        time.sleep(0.5)
        run.send_signal(signal.SIGINT)
        out, said = run.communicate()
        self.assertEqual((run.returncode, out), (-signal.SIGINT, b""))
        self.assertNotIn(b"Traceback", said)


class Letters(Folder):
    def test_other_letters_in_comments(self):
        for comment in ("br\xfccke \x80".encode("latin-1"), "brücke".encode(), b"\xff"):
            data = b"# " + comment + b"\n" + (SQUARE_HEAD + LINES).encode()
            self.assertEqual(Run("explain", data=data).status, 0)
            self.assertEqual(Run("pack", data=data).out, binary(SQUARE_RECORDS))

    def test_wide_letters(self):
        text = SQUARE_HEAD + LINES
        for form in ("utf-16", "utf-16-le", "utf-16-be"):
            for words in (("explain",), ("pack",), ("pages", "-"), ("board",)):
                run = Run(*words, data=text.encode(form))
                self.assertEqual(run.all, (2, "", "revosti: standard input: the text is UTF-16, two bytes a letter; save it as UTF-8\n"),
                                 words)
            run = Run("pages", self.put("a.tsp", SQUARE.read_text().encode(form)))
            self.assertEqual(run.status, 2)
            self.assertIn("the text is UTF-16: save it as UTF-8", run.err)

    def test_binary_files_are_not_wide(self):
        for rule in range(6):
            for n in (0, 4, 180):
                run = Run("explain", data=binary(SQUARE_RECORDS, rule=rule, n=n))
                self.assertNotIn("UTF-16", run.err + run.text)

    def test_names_of_files(self):
        name = os.fsdecode(b"a\xff\n.tsp")
        for words in (("pages", self.folder / name), ("explain", "--board", self.folder / name, SHEET)):
            self.assertEqual(Run(*words).status, 3)


class Statuses(Folder):
    """0, 1, 2 and 3 of each command that can be refused."""

    def check(self, status, *words, data=b""):
        """The command ends so, and says something."""
        run = Run(*words, data=data)
        self.assertEqual(run.status, status, (words, run.err))
        self.assertTrue(run.text or run.err)

    def setUp(self):
        super().setUp()
        self.marks = self.folder / "a.marks"
        Run("fresh", SQUARE, "--marks", self.marks)

    def test_sheets(self):
        for name, more in (("explain", ()), ("slip", ()), ("mark", ("--marks", self.marks)), ("ask", ("--marks", self.marks))):
            self.check(1, name, *more, data=STOPS)
            self.check(1, name, *more, "--form", "binary", data=b"")
            self.check(2, name, *more, data=b"rul 1\n")
            self.check(2, name, "--paint")
            self.check(3, name, *more, "/nowhere/sheet")
            self.check(0, name, *more, data=binary(SQUARE_RECORDS))
            Run("fresh", SQUARE, "--marks", self.marks, "--force")

    def test_sets(self):
        for name in ("confirm", "withdraw"):
            self.check(1, name, "--marks", self.marks)
            self.check(2, name, "--marks", self.put("b", b"xyz"))
            self.check(3, name, "--marks", "/nowhere/marks")
            Run("ask", "--board", SQUARE, SHEET, "--marks", self.marks)
            self.check(0, name, "--marks", self.marks)
            Run("fresh", SQUARE, "--marks", self.marks, "--force")

    def test_boards(self):
        far = self.put("far.tsp", SQUARE.read_text().replace("3 10 10", "3 10 1000001"))
        for name, *words in (("pages",), ("pairs", 1, 2, 3), ("saving", "exchange", 1, 3, 2, 4), ("tour", "1,2,3,4"), ("edges",), ("draw",),
                             ("fresh", "--marks", self.folder / "new")):
            self.check(1, name, far, *words)
            self.check(2, name, self.put("bad.tsp", b"what\n"), *words)
            self.check(3, name, "/nowhere/board.tsp", *words)
            self.check(0, name, SQUARE, *words)

    def test_refused_in_json(self):
        self.assertEqual(Run("pairs", SQUARE, 1, 1, 2, "--json").text,
                         '{"refusal": 11, "record": 0, "words": "A point is outside 1 to n, or a = b; for a saving also, both ends of '
                         'an edge taken out are the same.", "detail": "Here A and B are both 1."}\n')
