"""Sets of marks are not lost: a full disk, a kill at any moment, ten commands at once, a file that is there already."""

import fcntl
import os
import random
import resource
import signal
import subprocess
import time
from itertools import combinations
from pathlib import Path
from unittest import mock

from tests.support import EXAMPLES
from tests.support.command import PROGRAM, Folder, Run, binary, start
from tests.support.packing import packed

import revosti
from revosti_command.archive import forget

ROUNDS = 100
SHEET = EXAMPLES / "square.txt"
SQUARE = EXAMPLES / "square.tsp"
FRESH, ASKED = packed([1] * 6), packed([1, 2, 1, 1, 2, 1])


def bare_lines(n, seed, count):
    """A board, and lines that are accepted in any order: no pair stands at their split points."""
    r = random.Random(seed)
    points = [(r.randrange(1000), r.randrange(1000)) for _ in range(n)]
    table, marks, found = revosti.measure(n, 1, points), revosti.fresh_marks(n), []
    for a, b in combinations(range(1, n + 1), 2):
        c = next((c for c in range(1, n + 1) if c not in (a, b) and not revosti.list_pairs(n, table, marks, a, b, c)), None)
        found += [(1, a, b, 0, 0, c, 0, 0)] if c else []
    return points, found[:count]


def forked(call):
    """A child of this process that does something and ends, its output unseen; its number."""
    child = os.fork()
    if child:
        return child
    try:
        quiet = os.open(os.devnull, os.O_WRONLY)
        os.dup2(quiet, 1)
        os.dup2(quiet, 2)
        os._exit(call() or 0)
    finally:
        os._exit(99)


def status_of(child):
    """How a child ended."""
    return os.waitstatus_to_exitcode(os.waitpid(child, 0)[1])


class Sets(Folder):
    def setUp(self):
        super().setUp()
        self.file = self.folder / "a.marks"
        self.assertEqual(Run("fresh", SQUARE, "--marks", self.file).status, 0)
        self.ask = ("ask", "--board", SQUARE, SHEET, "--marks", self.file)

    def names(self):
        """What lies in the folder."""
        return sorted(path.name for path in self.folder.iterdir())


class FullDisk(Sets):
    """A limit on the size of files stands for a full disk."""

    def limited(self, size, *words):
        """A process of the command that writes no file longer than this."""
        run = subprocess.run([PROGRAM, *map(str, words)], capture_output=True, check=False, stdin=subprocess.DEVNULL,
                             preexec_fn=lambda: resource.setrlimit(resource.RLIMIT_FSIZE, (size, size)))
        return run.returncode, run.stderr.decode()

    def test_the_old_set_stays(self):
        before = self.names()
        status, said = self.limited(1, *self.ask)
        self.assertEqual((status, said), (3, f"revosti: {self.file}: File too large\n"))
        self.assertEqual((self.file.read_bytes(), self.names()), (FRESH, before))

    def test_other_files_stay(self):
        out = self.put("out", b"old")
        for words in (("pages", SQUARE), ("edges", SQUARE), ("draw", SQUARE), ("unpack", EXAMPLES / "square.bin")):
            status, said = self.limited(10, *words, "-o", out)
            self.assertEqual((status, said, out.read_bytes()), (3, f"revosti: {out}: File too large\n", b"old"))

    def test_no_half_of_a_new_set(self):
        for name in ("b.marks", "a.marks"):
            status, said = self.limited(1, "fresh", SQUARE, "--marks", self.folder / name, "--force")
            self.assertEqual((status, said), (3, f"revosti: {self.folder / name}.fingerprint: File too large\n"))
        self.assertEqual((self.file.read_bytes(), self.names()), (FRESH, ["a.marks", "a.marks.fingerprint"]))

    def test_a_small_file_system(self):
        place = self.folder / "small"
        place.mkdir()
        if subprocess.run(["mount", "-t", "tmpfs", "-o", "size=16k", "none", place], capture_output=True, check=False).returncode:
            self.skipTest("no file system can be mounted here")
        self.addCleanup(subprocess.run, ["umount", place], check=False)
        self.file = place / "a.marks"
        self.assertEqual(Run("fresh", SQUARE, "--marks", self.file).status, 0)
        with open(place / "rest", "wb", buffering=0) as rest:
            try:
                while True:
                    rest.write(bytes(4096))
            except OSError:
                pass
        run = Run("ask", "--board", SQUARE, SHEET, "--marks", self.file)
        self.assertEqual(run.all, (3, "", f"revosti: {self.file}: No space left on device\n"))
        self.assertEqual(self.file.read_bytes(), FRESH)


class Killed(Sets):
    def killed_at(self, step, command):
        """A child that is killed as it comes to a step of writing."""
        return status_of(forked(lambda: self.stopped_at(step, command)))

    def stopped_at(self, step, command):
        """The command, with a kill in place of a step."""
        with mock.patch(step, side_effect=lambda *_, **__: os.kill(os.getpid(), signal.SIGKILL)):
            return Run(*command).status

    def test_each_step(self):
        steps = [f"revosti_command.files.{name}" for name in ("tempfile.mkstemp", "keep_mode", "os.fsync", "os.replace", "sync_folder")]
        for step in steps:
            self.file.write_bytes(FRESH)
            self.assertEqual(self.killed_at(step, self.ask), -signal.SIGKILL, step)
            self.assertEqual(self.file.read_bytes(), ASKED if step.endswith("sync_folder") else FRESH, step)
            self.assertEqual(Run(*self.ask).status, 1 if step.endswith("sync_folder") else 0, step)

    def test_each_step_of_fresh(self):
        for step in ("tempfile.mkstemp", "os.fsync", "os.link", "os.replace", "sync_folder"):
            file = self.folder / f"{step}.marks"
            self.assertEqual(self.killed_at(f"revosti_command.files.{step}", ("fresh", SQUARE, "--marks", file)), -signal.SIGKILL, step)
            self.assertIn(file.read_bytes() if file.exists() else FRESH, (FRESH,))
            mark = Run("mark", "--board", SQUARE, SHEET, "--marks", file)
            self.assertEqual(mark.status, 0 if file.exists() else 3)

    def test_force_never_leaves_a_set_of_another_board(self):
        wide = EXAMPLES / "wide_weights.tsp"
        for step in ("tempfile.mkstemp", "os.fsync", "os.replace", "sync_folder"):
            self.file.unlink()
            Run("fresh", SQUARE, "--marks", self.file, "--force")
            Run(*self.ask)
            self.killed_at(f"revosti_command.files.{step}", ("fresh", wide, "--marks", self.file, "--force"))
            self.assertIn(self.file.read_bytes(), (ASKED, FRESH))
            run = Run("pages", wide if self.file.read_bytes() == ASKED else SQUARE, "--marks", self.file)
            self.assertTrue(run.status == 2 or run.notes, step)

    def test_any_moment(self):
        r, seen, (begun, begin) = random.Random(1), set(), os.pipe()

        def settle():
            Run("withdraw", "--marks", self.file)
            os.write(begin, b".")
            while True:
                Run(*self.ask)
                Run("withdraw", "--marks", self.file)
        for _ in range(ROUNDS):
            child = forked(settle)
            os.read(begun, 1)
            time.sleep(r.uniform(0, 0.012))
            os.kill(child, signal.SIGKILL)
            self.assertEqual(status_of(child), -signal.SIGKILL)
            seen.add(self.file.read_bytes())
            self.assertLessEqual(seen, {bytes(FRESH), bytes(ASKED)})
        self.assertEqual(seen, {bytes(FRESH), bytes(ASKED)})
        self.assertIn(Run("withdraw", "--marks", self.file).status, (0, 1))
        os.close(begun)
        os.close(begin)


class AtOnce(Folder):
    """Ten sheets over one set. Each strikes an edge of its own."""

    def setUp(self):
        super().setUp()
        self.points, self.lines = bare_lines(12, 5, 10)
        self.file = self.folder / "a.marks"
        self.sheets = [self.put(f"{i}.sheet", binary([line], self.points)) for i, line in enumerate(self.lines)]
        self.assertEqual(len(self.sheets), 10)

    def struck(self):
        """The edges struck, a fresh set then."""
        marks = self.file.read_bytes()
        return [(a, b) for a, b in combinations(range(1, 13), 2) if revosti.mark_of(12, marks, a, b) == revosti.STRUCK]

    def fresh(self):
        """A fresh set."""
        self.assertEqual(Run("fresh", self.sheets[0], "--marks", self.file, "--force").status, 0)

    def test_ten_processes(self):
        self.fresh()
        runs = [start("mark", sheet, "--marks", self.file) for sheet in self.sheets]
        for run in runs:
            _, said = run.communicate()
            self.assertEqual((run.returncode, said.replace(f"revosti: {self.file}: another command changes it; waiting\n".encode(), b"")),
                             (0, b""))
        self.assertEqual(self.struck(), sorted((a, b) for _, a, b, *_ in self.lines))

    def test_a_hundred_times(self):
        for _ in range(ROUNDS):
            self.fresh()
            children = [forked(lambda sheet=sheet: Run("mark", sheet, "--marks", self.file).status) for sheet in self.sheets]
            self.assertEqual([status_of(child) for child in children], [0] * 10)
            self.assertEqual(self.struck(), sorted((a, b) for _, a, b, *_ in self.lines))

    def test_ten_new_sets_of_one_name(self):
        boards = [self.put(f"{i}.board", binary([], [(x + i * y, y) for x, y in self.points])) for i in range(10)]
        for _ in range(ROUNDS // 5):
            children = [forked(lambda board=board: Run("fresh", board, "--marks", self.file).status) for board in boards]
            statuses = [status_of(child) for child in children]
            self.assertEqual(sorted(statuses), [0] + [2] * 9)
            for board, status in zip(boards, statuses):
                run = Run("edges", board, "--marks", self.file)
                self.assertEqual((run.status, run.notes), (status, []))
            self.file.unlink()  # its fingerprint stays, and is of another board next time

    def test_the_one_that_is_made_keeps_its_fingerprint(self):
        boards = [self.put(f"{i}.board", binary([], [(x + i * y, y) for x, y in self.points])) for i in range(2)]
        begun, begin = os.pipe()

        def late(file):
            os.write(begin, b".")
            time.sleep(0.5)
            forget(file)

        def slow():
            with mock.patch("revosti_command.archive.forget", side_effect=late):
                return Run("fresh", boards[0], "--marks", self.file).status
        first = forked(slow)
        os.read(begun, 1)
        statuses = [status_of(forked(lambda: Run("fresh", boards[1], "--marks", self.file).status)), status_of(first)][::-1]
        self.assertEqual(sorted(statuses), [0, 2])
        for board, status in zip(boards, statuses):
            run = Run("edges", board, "--marks", self.file)
            self.assertEqual((run.status, run.notes), (status, []))
        os.close(begun)
        os.close(begin)

    def test_waiting_is_told(self):
        self.fresh()
        with open(self.file, "rb") as held:
            fcntl.flock(held, fcntl.LOCK_EX)
            run = start("mark", self.sheets[0], "--marks", self.file)
            self.assertEqual(run.stderr.readline().decode(), f"revosti: {self.file}: another command changes it; waiting\n")
            self.assertEqual(self.struck(), [])
        out, said = run.communicate()
        self.assertEqual((run.returncode, out[:19], said), (0, b"1 line is accepted.", b""))

    def test_a_set_that_is_replaced_while_one_waits(self):
        self.fresh()
        with open(self.file, "rb") as held:
            fcntl.flock(held, fcntl.LOCK_EX)
            run = start("mark", self.sheets[0], "--marks", self.file)
            run.stderr.readline()
            marks = bytearray(self.file.read_bytes())
            revosti.mark_sheet(12, revosti.measure(12, 1, self.points), marks, [self.lines[1]])
            self.put("new", marks).replace(self.file)
        run.communicate()
        self.assertEqual(self.struck(), sorted((a, b) for _, a, b, *_ in self.lines[:2]))


class Existing(Sets):
    def test_a_set_with_strikes(self):
        Run(*self.ask)
        self.assertEqual(Run("fresh", SQUARE, "--marks", self.file).all,
                         (2, "", f"revosti: {self.file}: there is such a file already; --force replaces it\n"))
        self.assertEqual(self.file.read_bytes(), ASKED)
        self.assertEqual(Run("fresh", SQUARE, "--marks", self.file, "--force").status, 0)
        self.assertEqual(self.file.read_bytes(), FRESH)

    def test_sheet_and_board(self):
        board, sheet = self.put("b.tsp", SQUARE.read_bytes()), self.put("b.txt", SHEET.read_bytes())
        for file, more in ((sheet, ()), (board, ()), (board, ("--force",))):
            run = Run("fresh", board, "--marks", file, *more)
            self.assertEqual((run.status, run.out), (2, b""))
            self.assertIn(f"revosti: {file}: th", run.err)
        self.assertEqual((board.read_bytes(), sheet.read_bytes()), (SQUARE.read_bytes(), SHEET.read_bytes()))

    def test_the_others_that_write_sets(self):
        Run(*self.ask)
        wall = self.put("wall", Run("pages", SQUARE).out)
        for words in (("read-pages", wall), ("convert", self.file, "--to", "bytes")):
            self.assertEqual(Run(*words, "-o", self.file).all,
                             (2, "", f"revosti: {self.file}: there is such a file already; --force replaces it\n"))
            self.assertEqual(self.file.read_bytes(), ASKED)

    def test_no_output_goes_over_a_set(self):
        for words in (("pages", SQUARE), ("draw", SQUARE), ("edges", SQUARE), ("convert", self.file, "--to", "text"), self.ask,
                      ("withdraw", "--marks", self.file), ("fresh", SQUARE, "--marks", self.folder / "b.marks")):
            run = Run(*words, "-o", self.file)
            self.assertEqual(run.status, 2)
            self.assertIn("this is a set of marks, with its fingerprint beside it, and is not overwritten", run.err)
        self.assertEqual((self.file.read_bytes(), self.names()), (FRESH, ["a.marks", "a.marks.fingerprint"]))

    def test_links_and_modes_stay(self):
        link = self.folder / "link.marks"
        link.symlink_to(self.file.name)
        self.file.chmod(0o640)
        self.assertEqual(Run("ask", "--board", SQUARE, SHEET, "--marks", link).all[::2], (0, ""))
        self.assertTrue(link.is_symlink())
        self.assertEqual((self.file.read_bytes(), self.file.stat().st_mode & 0o777), (ASKED, 0o640))

    def test_what_is_no_file(self):
        pipe = self.folder / "pipe"
        os.mkfifo(pipe)
        for file, words in ((self.folder, "Is a directory"), (pipe, "expected a regular file"),
                            (Path("/dev/null"), "expected a regular file")):
            run = Run("withdraw", "--marks", file)
            self.assertIn(f"revosti: {file}: {words}\n", run.err)
            self.assertIn(run.status, (2, 3))
