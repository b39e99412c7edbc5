"""The help, USE and FORMATS agree with each other and with what the command does; it runs from any folder, through
links, and from a built tree that cannot be written."""

import json
import os
import re
import shlex
import shutil
import subprocess
import unittest

from tests.support import EXAMPLES, ROOT
from tests.support.command import NINE, PROGRAM, Folder, Run

from revosti_command.commands import GROUPS, every_command
from revosti_command.main import STATUS, parser

COMMANDS = {module.NAME: module for module in every_command()}
FORMATS, README, USE, RULES, DECISIONS = ((ROOT / name).read_text(encoding="utf-8") for name in
                                          ("docs/FORMATS.md", "README.md", "docs/USE.md", "docs/RULES.md", "docs/DECISIONS.md"))
WANTED = {"mark", "ask", "confirm", "withdraw", "fresh", "explain", "pairs", "saving", "slip", "tour", "edges", "draw", "pages",
          "read-pages", "board",
          "pack", "unpack", "convert", "desks", "tell"}


def options_of(name):
    """The options that a command has."""
    command = parser()._subparsers._group_actions[0].choices[name]
    return {option for action in command._actions for option in action.option_strings}


def calls(text):
    """The calls of the command that a text shows, each as words."""
    return [shlex.split(found) for found in re.findall(r"(?:bin/)?revosti ([a-z-]+[^`\n]*)", text)]


class Help(unittest.TestCase):
    def test_every_command(self):
        self.assertLessEqual(WANTED, set(COMMANDS))
        shown = Run("--help").text
        for name, module in COMMANDS.items():
            self.assertEqual(module.__name__.rpartition(".")[2].replace("_", "-"), name)
            self.assertIn(module.GROUP, GROUPS)
            self.assertIn(f"\n  {name:<12}{module.HELP}\n", shown)
        self.assertIn(STATUS, shown)

    def test_each_command(self):
        for name, module in COMMANDS.items():
            run = Run(name, "--help")
            self.assertEqual((run.status, run.err), (0, ""))
            self.assertTrue(run.text.startswith(f"usage: revosti {name} "), run.text)
            self.assertIn(f"Example:\n  {module.EXAMPLE}\n\n{STATUS}", run.text)
            self.assertIn(f"revosti {name} ", module.EXAMPLE)
            self.assertLessEqual(max(map(len, run.text.partition("Example:")[0].splitlines())), 80)

    def test_lines_of_the_overview_fit(self):
        self.assertLessEqual(max(map(len, Run("--help").text.splitlines())), 100)


class Examples(Folder):
    """Each example works as it stands, in a folder that has the examples."""

    def run_here(self, line):
        """One call, in the folder."""
        return subprocess.run([PROGRAM, *shlex.split(line)[1:]], cwd=self.folder, capture_output=True, check=False,
                              stdin=subprocess.DEVNULL)

    def test_examples(self):
        for name, module in COMMANDS.items():
            self.folder = self.folder / name
            self.folder.mkdir()
            (self.folder / "examples").symlink_to(EXAMPLES)
            for line in module.EXAMPLE.splitlines():
                run = self.run_here(line.strip())
                self.assertEqual(run.returncode, 0, (line, run.stderr))
                self.assertNotIn(b"unknown origin", run.stderr)
            self.folder = self.folder.parent


class Documents(unittest.TestCase):
    def test_table_of_commands(self):
        table = FORMATS.partition("| Command | Does | Standard form |")[2].partition("\n\n")[0]
        named = {name for row in table.splitlines()[2:] for name in re.findall(r"`([a-z-]+)`", row.split("|")[1])}
        self.assertEqual(named, set(COMMANDS))

    def test_options_that_documents_show(self):
        seen = set()
        for text in (FORMATS, README, USE, RULES):
            for name, *words in calls(text) + [form.split() for form in re.findall(r"\| `([a-z-]+ [^`]*)`", FORMATS)]:
                if name not in COMMANDS:
                    continue
                for option in (word.strip("[]") for word in words if re.fullmatch(r"\[?--?[a-z].*", word)):
                    self.assertIn(option, options_of(name), (name, words))
                    seen.add((name, option))
        self.assertGreater(len(seen), 15)

    def test_statuses(self):
        table = FORMATS.partition("| Exit status | Meaning |")[2].partition("\n\n")[0]
        self.assertEqual(re.findall(r"^\| (\d) \|", table, re.M), ["0", "1", "2", "3"])
        self.assertEqual(re.findall(r"\d", STATUS), ["0", "1", "2", "3"])

    def test_no_document_names_the_old_command(self):
        for text in (FORMATS, README, USE, RULES, DECISIONS):
            self.assertNotIn("tools/sheet", text)
            self.assertNotIn("show-marks", text)
            self.assertNotIn("pack-marks", text.replace("`pack_marks`", ""))


def as_nobody():
    """Words in front of a command that take the rights of root away, where the command runs without them, too."""
    words = ["setpriv", "--reuid=65534", "--regid=65534", "--clear-groups"]
    tried = os.getuid() == 0 and shutil.which("setpriv") and subprocess.run([*words, "python3", "-c", ""], capture_output=True, check=False)
    return words if tried and tried.returncode == 0 else []


class Fields(Folder):
    """The fields of JSON that FORMATS names are those of the answers."""

    def answers(self, name):
        """Answers of a command, one line each, refused ones too."""
        marks, sheet = self.folder / f"{name}.marks", ("--board", EXAMPLES / "square.tsp", EXAMPLES / "square.txt")
        Run("fresh", EXAMPLES / "square.tsp", "--marks", marks)
        if name in ("confirm", "withdraw"):
            Run("ask", *sheet, "--marks", marks)
        words = {"mark": (*sheet, "--marks", marks), "ask": (*sheet, "--marks", marks), "confirm": ("--marks", marks),
                 "withdraw": ("--marks", marks),
                 "pairs": (EXAMPLES / "square.tsp", 1, 2, 3), "tour": (EXAMPLES / "square.tsp", "1,2,3,4"),
                 "desks": (self.folder / "hall", "open", EXAMPLES / "square.tsp")}.get(name, sheet)
        found = [json.loads(Run(name, *words, "--json").text)]
        if name in ("mark", "ask", "explain"):
            found.append(json.loads(Run(name, EXAMPLES / "case_missing.bin", *words[3:], "--json").text))
        return found

    def test_fields(self):
        table = FORMATS.partition("| Commands | Fields |")[2].partition("\n\n")[0]
        rows = [row.split("|")[1:3] for row in table.splitlines()[2:]]
        named = {name: set(re.findall(r"`([a-z_]+)`", fields)) for names, fields in rows for name in re.findall(r"`([a-z-]+)`", names)}
        self.assertEqual(set(named), {name for name in COMMANDS if "--json" in options_of(name)})
        for name, fields in named.items():
            answers = self.answers(name)
            inner = {key for found in answers for value in found.values() if isinstance(value, dict) for key in value}
            self.assertEqual({key for found in answers for key in found} | inner, fields, name)


class Anywhere(Folder):
    def run_as(self, program, cwd, *words):
        """Status and complaint of the command by some name, in some folder."""
        run = subprocess.run([program, *map(str, words)], cwd=cwd, capture_output=True, check=False, stdin=subprocess.DEVNULL)
        return run.returncode, run.stdout.decode(), run.stderr.decode()

    def test_folders_and_links(self):
        link, chain = self.folder / "revosti", self.folder / "other"
        link.symlink_to(PROGRAM)
        chain.symlink_to("revosti")
        wanted = Run("explain", NINE).all
        for program, cwd in ((PROGRAM, "/"), (link, self.folder), (chain, "/tmp"), ("./other", self.folder)):
            self.assertEqual(self.run_as(program, cwd, "explain", NINE), wanted)

    def test_built_tree_that_cannot_be_written(self):
        tree = self.folder / "a tree"
        for name in ("bin", "tools", "examples", "include", "crates"):
            shutil.copytree(ROOT / name, tree / name, symlinks=True, ignore=shutil.ignore_patterns("__pycache__", "out"))
        shutil.copy2(ROOT / "crates.txt", tree)
        for name in ("staticlib", "built"):
            if (ROOT / "target" / name).exists():
                shutil.copytree(ROOT / "target" / name, tree / "target" / name)
        shutil.copy2(ROOT / "target/librevosti.so", tree / "target")
        before = sorted(tree.rglob("*"))
        folders = [tree, *(path for path in before if path.is_dir())]
        for path in folders:
            path.chmod(0o555)
        self.addCleanup(lambda: [path.chmod(0o755) for path in folders])
        self.folder.chmod(0o777)
        run = subprocess.run([*as_nobody(), tree / "bin/revosti", "explain", tree / "examples/square.bin"], cwd="/", capture_output=True,
                             check=False,
                             stdin=subprocess.DEVNULL, env={"PATH": os.environ["PATH"]})
        self.assertEqual((run.returncode, run.stderr), (0, b""))
        self.assertEqual(run.stdout.decode(), Run("explain", EXAMPLES / "square.bin").text)
        self.assertEqual(sorted(tree.rglob("*")), before)
