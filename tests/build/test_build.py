"""tools/build: what is proved, what is told, and what happens when it is called at once, interrupted or killed."""

import os
import random
import re
import shutil
import signal
import subprocess
import sys
import time
import unittest
from concurrent.futures import ThreadPoolExecutor

from tests.support import ROOT
from tests.support.build import ANSWER, LIMIT, SIGNALS, Tree, eventually


class Proves(Tree):
    def test_what_it_needs_and_no_more(self):
        status, out, told = self.mark()
        self.assertEqual((status, out), (0, ANSWER.format(2)))
        self.progress(told, 1, 4, "left", "right", "upper", "mark")
        self.assertEqual(self.mark(), (0, ANSWER.format(2), ""))
        self.assertCountEqual(self.begun(), ["left", "right", "upper", "mark"])

    def test_the_library_then_proves_what_is_left(self):
        self.mark()
        status, out, told = self.build("archive")
        self.assertEqual((status, out, told), (0, "", "4 of 6: more\n5 of 6: revosti\n6 of 6: revosti_c\n"))
        self.assertEqual(self.begun()[4:], ["more", "revosti", "revosti_c"])
        self.assertEqual(self.build("archive"), (0, "", ""))

    def test_two_at_a_time(self):
        self.mark(PACE="0.6")
        self.assertEqual([what for what, _, _ in self.calls()][:4], ["begin", "begin", "end", "end"])

    def test_a_change_of_definitions(self):
        self.mark()
        self.change("crates/upper/specs/Lib.antt", "another")
        self.assertEqual(self.mark()[2], "3 of 4: upper\n4 of 4: mark\n")
        self.assertEqual(self.mark()[2], "")

    def test_a_change_of_both_products(self):
        self.mark()
        self.build("archive")
        self.change("crates/left/src/lib.rt", "3")
        self.assertEqual(self.proved_since("bin/mark"), ["left", "upper", "mark"])
        self.assertEqual(self.proved_since("tools/build", "archive"), ["more", "revosti", "revosti_c"])

    def test_a_change_of_crates_txt(self):
        self.mark()
        text = (self.root / "crates.txt").read_text()
        self.change("crates.txt", text.replace("right:", "right: left"))
        self.assertEqual(self.proved_since("bin/mark"), ["right", "upper", "mark"])
        self.change("crates.txt", text)
        self.assertEqual(self.proved_since("bin/mark"), [])

    def test_a_file_added_and_taken_away(self):
        self.mark()
        self.change("crates/left/proofs/New.antt", "")
        self.assertEqual(self.proved_since("bin/mark"), ["left"])
        (self.root / "crates/left/proofs/New.antt").unlink()
        self.assertEqual(self.proved_since("bin/mark"), [])

    def test_what_is_no_change(self):
        self.mark()
        os.utime(self.root / "crates/left/src/lib.rt")
        self.change("crates/apart/src/lib.rt", "3")
        self.change("crates/left/must-fail/some.edit", "3")
        self.change("crates.txt", "# a comment\n" + (self.root / "crates.txt").read_text())
        self.assertEqual(self.mark(), (0, ANSWER.format(2), ""))
        self.assertEqual(len(self.begun()), 4)

    def test_a_copy_of_the_tree_is_up_to_date(self):
        self.mark()
        shutil.copytree(self.root, self.kit / "copy")
        self.root = self.kit / "copy"
        self.assertEqual(self.proved_since("bin/mark"), [])

    def test_through_a_link(self):
        (self.kit / "elsewhere").mkdir()
        (self.kit / "elsewhere/mark").symlink_to(self.root / "bin/mark")
        run = subprocess.run([self.kit / "elsewhere/mark"], input="sheet", capture_output=True, text=True, cwd=self.kit / "elsewhere",
                             env=self.environment(), check=False)
        self.assertEqual((run.returncode, run.stdout), (0, ANSWER.format(2)))

    def test_a_path_with_blanks(self):
        self.root = self.root.rename(self.root.with_name("a tree"))
        self.assertEqual(self.mark()[:2], (0, ANSWER.format(2)))


class Products(Tree):
    def test_another_program_in_its_place(self):
        self.mark()
        (self.root / "target/built/mark").write_text("#!/bin/sh\necho another\n")
        self.assertEqual(self.mark(), (0, ANSWER.format(2), ""))

    def test_programs_missing(self):
        self.mark()
        (self.root / "target/built/mark").unlink()
        self.assertEqual(self.proved_since("bin/mark"), [])
        (self.root / "target/built/mark").unlink()
        shutil.rmtree(next(self.store.glob("proof-mark-*")))
        self.assertEqual(self.proved_since("bin/mark"), ["mark"])

    def test_a_proved_crate_missing(self):
        self.mark()
        shutil.rmtree(next(self.store.glob("proof-left-*")))
        self.change("crates/upper/src/lib.rt", "3")
        self.assertEqual(self.proved_since("bin/mark"), ["left", "upper", "mark"])

    def test_rt_run_by_hand_on_a_change_taken_back(self):
        self.mark()
        self.change("crates/mark/src/main.rt", "3")
        subprocess.run([self.kit / "bin/rt", "ci"], cwd=self.root, env=self.environment(), check=True, capture_output=True)
        self.assertEqual(self.mark(), (0, ANSWER.format(3), ""))
        self.change("crates/mark/src/main.rt", "2")
        self.assertEqual(self.mark(), (0, ANSWER.format(2), ""))

    def test_an_archive_of_another_change(self):
        self.build("archive")
        (self.root / "target/staticlib/librevosti.a").write_text("another")
        self.assertEqual(self.proved_since("tools/build", "archive"), [])
        self.assertEqual((self.root / "target/staticlib/librevosti.a").read_text(), "2")
        shutil.rmtree(self.root / "target/built/checked")
        (self.root / "target/staticlib/librevosti.a").unlink()
        self.assertEqual(self.proved_since("tools/build", "archive"), ["revosti_c"])

    def test_a_change_while_it_is_built(self):
        started = self.start("bin/mark", PACE="0.4")
        eventually(lambda: "mark" in self.begun())
        self.change("crates/upper/src/lib.rt", "3")
        status, out, _ = self.end(started)
        self.assertEqual((status, out), (0, ANSWER.format(2)))
        self.assertEqual(self.begun()[2:], ["upper", "mark", "upper", "mark"])
        self.assertEqual(self.proved_since("bin/mark"), [])


class Fails(Tree):
    def test_wrong_code(self):
        self.mark()
        self.change("crates/left/src/lib.rt", "wrong")
        for _ in range(2):
            status, out, told = self.mark()
            self.assertEqual((status, out), (3, ""))
            self.assertIn("rt: left NOT PROVED\n", told)
            self.assertRegex(told, r"rt refuses mark: .*target/built/log has its words\n\Z")

    def test_wrong_code_taken_back_loses_no_proof(self):
        self.mark()
        self.change("crates/left/src/lib.rt", "wrong")
        self.mark()
        self.change("crates/left/src/lib.rt", "2")
        self.assertEqual(self.proved_since("bin/mark"), [])
        self.assertLessEqual({"left", "right", "upper", "mark"}, self.kept())

    def test_a_prover_that_breaks_is_no_verdict(self):
        self.build("archive")
        self.change("crates/left/src/lib.rt", "3")
        status, out, told = self.mark(BREAKS="left")
        self.assertEqual((status, out), (3, ""))
        self.assertNotIn("NOT PROVED", told)
        self.assertIn("rt fails with status 1, which says nothing of the proofs; what is proved is kept", told)
        self.change("crates/left/src/lib.rt", "2")
        self.assertEqual(self.proved_since("tools/build", "archive"), [])
        self.change("crates/more/src/lib.rt", "3")
        self.assertEqual(self.proved_since("tools/build", "archive"), ["more", "revosti", "revosti_c"])

    def test_no_kit(self):
        script = self.root / "tools/build"
        script.write_text(script.read_text().replace("/opt/rattle/bin/rt", "/nowhere/rt"))
        (self.kit / "bin/rt").rename(self.kit / "bin/away")
        self.assertEqual(self.mark(PATH="/usr/bin:/bin"), (
            3, "", "mark is to be built, and there is no Rattle kit: neither rt on the path nor /nowhere/rt\n"))
        (self.kit / "bin/away").rename(self.kit / "bin/rt")
        self.mark()
        self.assertEqual(self.mark(PATH="/usr/bin:/bin"), (0, ANSWER.format(2), ""))

    def test_a_full_disk(self):
        """No file can grow: nothing is said of the proofs, and nothing is lost."""
        self.mark()
        self.change("crates/left/src/lib.rt", "3")
        for room in (0, 40, 100):
            words = [sys.executable, "-c", LIMIT, str(room), self.root / "bin/mark"]
            run = subprocess.run(words, input="sheet", capture_output=True, text=True, env=self.environment(), check=False)
            self.assertEqual((run.returncode, run.stdout), (3, ""), run.stderr)
            self.assertNotIn("NOT PROVED", run.stderr)
        self.assertEqual(self.proved_since("bin/mark"), ["left", "upper", "mark"])
        self.assertEqual(self.mark(), (0, ANSWER.format(2), ""))

    def test_nobody_listens(self):
        run = subprocess.run(["sh", "-c", 'exec "$0" 2>&-', self.root / "bin/mark"], input="sheet", stdout=subprocess.PIPE, text=True,
                             env=self.environment(), check=False)
        self.assertEqual((run.returncode, run.stdout), (0, ANSWER.format(2)))

    def test_bad_use(self):
        for words in (("all",), ("mark", "some")):
            self.assertEqual(self.build(*words), (2, "", "usage: tools/build [mark | archive | library | wasm] ..\n"))
        self.assertEqual(self.begun(), [])

    def test_no_gcc(self):
        for name in ("sh", "awk", "sed", "find", "sha256sum", "sort", "flock", "setsid", "readlink", "dirname", "mkdir", "touch", "cp",
                     "mv", "rm", "cat", "grep", "sleep", "wc", "cut", "uname", "date", "nproc", "ls", "tr", "basename", "head", "mktemp",
                     "python3", "setpriv", "chmod"):
            (self.kit / "bin" / name).symlink_to(shutil.which(name))
        status, _, told = self.build("library", PATH=str(self.kit / "bin"))
        last = "there is no gcc, which links target/librevosti.so\n"
        self.assertEqual((status, told[-len(last):]), (3, last))
        self.progress(told.removesuffix(last), 1, 6, "left", "right", "upper", "more", "revosti", "revosti_c")


class ReadOnly(Tree):
    """Nobody, or whoever runs the tests, may read the tree and not write it."""

    def setUp(self):
        super().setUp()
        self.mark()

    def reader(self):
        """The status, output and words of bin/mark for a reader."""
        subprocess.run(["chmod", "-R", "a+rX,a-w", self.root], check=True)
        self.addCleanup(subprocess.run, ["chmod", "-R", "u+w", self.root], check=True)
        words = ["setpriv", "--reuid=65534", "--regid=65534", "--clear-groups"] if os.getuid() == 0 else []
        run = subprocess.run([*words, self.root / "bin/mark"], input="sheet", capture_output=True, text=True, check=False, cwd="/",
                             env=self.environment())
        return run.returncode, run.stdout, run.stderr

    def test_built(self):
        self.assertEqual(self.reader(), (0, ANSWER.format(2), ""))

    def test_not_up_to_date(self):
        self.change("crates/left/src/lib.rt", "3")
        self.assertEqual(self.reader(), (3, "", f"{self.root.resolve()}/target cannot be written, and what is built there is not that of "
                                                "crates/: build a copy that can be written\n"))


class AtOnce(Tree):
    def test_ten_at_once(self):
        started = [self.start(*words, PACE="0.4") for _ in range(5) for words in (("bin/mark",), ("tools/build", "archive"))]
        ended = [self.end(one) for one in started]
        self.assertEqual([status for status, _, _ in ended], [0] * 10, ended)
        self.assertEqual({out for _, out, _ in ended}, {ANSWER.format(2), ""})
        self.assertEqual(sorted(self.begun()), ["left", "mark", "more", "revosti", "revosti_c", "right", "upper"])
        self.assertIn(sum(told.startswith("waiting for another build\n") for _, _, told in ended), range(5, 10))
        self.assertNotIn("NOT PROVED", str(ended))

    def test_ten_at_once_over_changes(self):
        for version in range(3, 8):
            self.change("crates/left/src/lib.rt", str(version))
            self.change("crates/mark/src/main.rt", str(version))
            before = len(self.begun())
            ended = [self.end(one) for one in [self.start("bin/mark", PACE="0.05") for _ in range(10)]]
            self.assertEqual({(status, out) for status, out, _ in ended}, {(0, ANSWER.format(version))})
            self.assertEqual(sorted(set(self.begun()[before:]) - {"right"}), ["left", "mark", "upper"])
            self.assertLessEqual(len(self.begun()) - before, 4)


class Interrupted(Tree):
    def until(self, crate, *words, pace="0.5"):
        """A call that has come to a crate."""
        started = self.start(*words, PACE=pace)
        eventually(lambda: crate in self.begun())
        return started

    def test_no_prover_is_left_and_no_proof_lost(self):
        for words in (("bin/mark",), ("tools/build", "mark")):
            for number, group in SIGNALS:
                with self.subTest(words=words, number=number, group=group):
                    self.forget()
                    started = self.until("upper", *words, pace="0.4")
                    self.assertEqual(self.provers() != [], True)
                    self.signal(started, number, group)
                    status, out, told = self.end(started)
                    self.assertEqual((status, out), (-number, ""))
                    self.assertTrue(told.endswith("the build is interrupted; what is proved is kept, and the next call goes on\n"), told)
                    eventually(lambda: not self.provers())
                    self.assertNotIn(["end", "upper"], [call[:2] for call in self.calls()])
                    self.assertEqual(self.kept(), {"left", "right"})
                    self.assertEqual(self.mark(), (0, ANSWER.format(2), "3 of 4: upper\n4 of 4: mark\n"))

    def test_while_it_waits(self):
        first = self.until("upper", "bin/mark", pace="1")
        second = self.start("bin/mark")
        self.assertEqual(second.stderr.readline(), "waiting for another build\n")
        self.signal(second, signal.SIGTERM)
        self.assertEqual(second.wait(timeout=20), -signal.SIGTERM)
        self.assertNotEqual(self.provers(), [])
        self.assertEqual(self.end(first)[:2], (0, ANSWER.format(2)))
        self.end(second)

    def test_killed(self):
        """The prover of a build that is killed goes on alone; the next call waits for it and has its proofs."""
        first = self.until("left", "tools/build", "mark", pace="0.8")
        self.signal(first, signal.SIGKILL)
        status, out, told = self.mark()
        self.assertEqual((status, out), (0, ANSWER.format(2)))
        self.assertTrue(told.startswith("waiting for another build\n"), told)
        self.assertCountEqual(self.begun(), ["left", "right", "upper", "mark"])
        self.assertEqual(self.end(first)[0], -signal.SIGKILL)

    def test_a_hundred_kills(self):
        """At any moment, by any signal, in five trees: proofs stay, and in the end all is built."""
        with ThreadPoolExecutor(5) as pool:
            list(pool.map(self.kills, range(5)))

    def kills(self, seed):
        """Twenty of them, in a tree of its own."""
        tree, chance, proved = Interrupted("test_killed"), random.Random(seed), set()
        tree.setUp()
        self.addCleanup(tree.doCleanups)
        for _ in range(20):
            started = tree.start("tools/build", "mark", "archive", PACE="0.05")
            time.sleep(chance.uniform(0, 0.4))
            tree.signal(started, chance.choice([signal.SIGINT, signal.SIGTERM, signal.SIGKILL]))
            self.assertNotIn("NOT PROVED", tree.end(started)[2])
            self.assertLessEqual(proved, tree.kept())
            proved = tree.kept()
            if "revosti" in tree.begun():  # from nothing again
                self.assertEqual(tree.build("archive")[0], 0)
                tree.forget()
                proved = set()
        self.assertEqual(tree.mark()[:2], (0, ANSWER.format(2)))
        self.assertEqual(tree.build("archive")[0], 0)
        self.assertEqual(tree.proved_since("tools/build", "mark", "archive"), [])


class Use(unittest.TestCase):
    def test_numbers_told(self):
        """The crates that docs/USE.md names are those that are told."""
        lines = re.findall(r"`(\d+) of (\d+): (\w+)`", (ROOT / "docs/USE.md").read_text(encoding="utf-8"))
        crates = dict(line.split(":") for line in (ROOT / "crates.txt").read_text().splitlines() if not line.startswith("#"))
        wanted, todo = set(), ["mark"]
        while todo:
            name = todo.pop()
            if name in crates and name not in wanted:
                wanted.add(name)
                todo += crates[name].split()
        self.assertTrue(lines)
        for _, total, name in lines:
            self.assertEqual(int(total), len(wanted))
            self.assertIn(name, wanted)
