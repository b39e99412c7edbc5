"""The shared object: which one is loaded, when it is built, and what is told. A stand-in for tools/build says what it
is of."""

import contextlib
import inspect
import io
import os
import re
import signal
import subprocess
import sys
import tempfile
import time
import unittest
from pathlib import Path
from unittest import mock

from tests.support import ROOT

import revosti
from revosti import library, slips
from revosti.library import NoLibrary, shared_object
from revosti.refusal import REFUSALS


class Find(unittest.TestCase):
    ASKS = "import sys; from pathlib import Path; from revosti import library; library.build(Path(sys.argv[1]))"
    ENDLESS = ("trap 'echo ended >\"$0.ended\"; exit 143' TERM INT\ntouch \"$0.began\"\n"
               "while [ ! -e \"$0.over\" ]; do sleep 0.02; done\n")

    def setUp(self):
        holder = tempfile.TemporaryDirectory()
        self.addCleanup(holder.cleanup)
        self.root = Path(holder.name).resolve()
        for patch in (mock.patch.object(library, "ROOT", self.root), mock.patch.object(library, "INSTALLED", self.root / "installed.so"),
                      mock.patch.dict(os.environ)):
            patch.start()
            self.addCleanup(patch.stop)
        os.environ.pop(library.VARIABLE, None)

    def put(self, text):
        """A stand-in for the build."""
        script = self.root / library.BUILD
        script.parent.mkdir(exist_ok=True)
        script.write_text("#!/bin/sh\n" + text)
        script.chmod(0o755)

    def found(self):
        """The path, and what is told."""
        told = io.StringIO()
        with contextlib.redirect_stderr(told):
            return shared_object(), told.getvalue()

    def fails(self):
        """What is said where there is none, and what is told before."""
        told = io.StringIO()
        with contextlib.redirect_stderr(told), self.assertRaises(NoLibrary) as caught:
            shared_object()
        return str(caught.exception), told.getvalue()

    def test_the_one_that_is_named(self):
        self.put("exit 3\n")
        (self.root / "installed.so").touch()
        os.environ[library.VARIABLE] = "/some/where.so"
        self.assertEqual(self.found(), (Path("/some/where.so"), ""))

    def test_the_one_that_is_installed(self):
        self.put("exit 3\n")
        (self.root / "installed.so").touch()
        self.assertEqual(self.found(), (self.root / "installed.so", ""))

    def test_that_of_the_repository(self):
        self.put('[ "$*" = library ] && echo no progress && echo "1 of 2: left" >&2 && echo gcc warns >&2 && echo "2 of 2: revosti" >&2\n')
        self.assertEqual(self.found(), (self.root / library.SHARED, "1 of 2: left\n2 of 2: revosti\n"))

    def test_it_waits_for_another_build(self):
        self.put("echo waiting for another build >&2\n")
        self.assertEqual(self.found()[1], "waiting for another build\n")

    def test_it_cannot_be_built(self):
        self.put('echo "1 of 2: left" >&2\necho there is no kit >&2\nexit 3\n')
        self.assertEqual(self.fails(), ("there is no kit", "1 of 2: left\n"))
        self.put("exit 4\n")
        self.assertEqual(self.fails(), (f"{self.root}/tools/build ends with status 4", ""))

    def test_no_repository(self):
        self.assertEqual(self.fails(), (f"there is no shared object: REVOSTI_SHARED names none, {self.root}/installed.so is missing, "
                                        "and this is no repository of Revosti", ""))

    def test_the_build_ends_with_who_asked_for_it(self):
        self.put(self.ENDLESS)
        before = signal.signal(signal.SIGINT, signal.default_int_handler)  # the tests may have been told to ignore it
        self.addCleanup(signal.signal, signal.SIGINT, before)
        script = self.root / library.BUILD
        for number in (signal.SIGINT, signal.SIGTERM, signal.SIGKILL):
            with self.subTest(number):
                for name in ("began", "ended"):
                    Path(f"{script}.{name}").unlink(missing_ok=True)
                with subprocess.Popen([sys.executable, "-B", "-c", self.ASKS, self.root], stderr=subprocess.DEVNULL,
                                      env={**os.environ, "PYTHONPATH": str(ROOT / "tools")}) as started:
                    try:
                        self.wait_for(Path(f"{script}.began"))
                        started.send_signal(number)
                        started.wait(20)
                    finally:
                        started.kill()
                self.wait_for(Path(f"{script}.ended"))
                self.assertIn(started.returncode, (-number, 1))

    def wait_for(self, file):
        """Waits until a file is there."""
        end = time.monotonic() + 20
        while not file.exists():
            self.assertLess(time.monotonic(), end, file)
            time.sleep(0.01)


class Load(unittest.TestCase):
    """Functions that answer what their place says, in a shared object that is named."""

    def load(self, source):
        """The library of these functions."""
        holder = tempfile.TemporaryDirectory()
        self.addCleanup(holder.cleanup)
        shared = Path(holder.name) / "librevosti.so"
        subprocess.run(["gcc", "-shared", "-fPIC", "-x", "c", "-", "-o", shared], input=source.encode(), check=True)
        with mock.patch.dict(os.environ, {library.VARIABLE: str(shared)}):
            return library.library.__wrapped__()

    def test_answers_of_64_bits(self):
        names = [*library.ARGUMENTS, *library.SAVINGS]
        loaded = self.load("".join(f"unsigned long {name}() {{ return -{place}ul; }}\n" for place, name in enumerate(names, 1)))
        for place, name in enumerate(names, 1):
            function = getattr(loaded, name)
            nothing = [None if form is library.BUFFER[0] else 0 for form in function.argtypes]
            self.assertEqual(function(*nothing), -place if name in library.SAVINGS else 2**64 - place, name)

    def test_a_function_is_missing(self):
        with self.assertRaisesRegex(NoLibrary, "cannot load .*librevosti.so: .*undefined symbol: revosti_read_tsplib"):
            self.load("unsigned long revosti_measure() { return 0; }\n")

    def test_no_such_file(self):
        with mock.patch.dict(os.environ, {library.VARIABLE: "/nowhere/some.so"}), \
                self.assertRaisesRegex(NoLibrary, "cannot load /nowhere/some.so: .*No such file"):
            library.library.__wrapped__()


class Header(unittest.TestCase):
    """Arguments and numbers are those of the header."""

    TEXT = (ROOT / "include/revosti.h").read_text()
    FORMS = {"uint64_t": library.LONG, "uint32_t": library.WORD, "uint16_t": library.HALF, "size_t": library.BUFFER[1],
             "*": library.BUFFER[0]}

    def form(self, argument):
        """The form of one argument."""
        return self.FORMS["*" if "*" in argument else argument.split()[0]]

    def test_arguments(self):
        for answer, wanted in (("uint64_t", library.ARGUMENTS), ("int64_t", library.SAVINGS)):
            declared = dict(re.findall(rf"^{answer} (revosti_\w+)\(([^)]*)\);", self.TEXT, re.M))
            self.assertEqual({name: tuple(map(self.form, words.split(","))) for name, words in declared.items()}, wanted)

    def test_points_of_a_saving(self):
        for name in library.SAVINGS:
            function = getattr(revosti, name.removeprefix("revosti_"))
            words = re.search(rf"^int64_t {name}\(([^)]*)\);", self.TEXT, re.M)[1]
            given = [word.split()[-1].lstrip("*") for word in words.split(",")]
            self.assertEqual([word for word in given if word != "table_len"], list(inspect.signature(function).parameters))

    def test_numbers(self):
        groups = [{name: int(number) for name, number in re.findall(r"REVOSTI_(\w+) = (\d+)", group)}
                  for group in re.findall(r"^enum \{(.*?)^\};", self.TEXT, re.M | re.S)]
        limits, refusals = groups
        for name in ("LEAST_POINTS", "MOST_POINTS", "OPEN", "PENDING", "STRUCK"):
            self.assertEqual(getattr(revosti, name), limits[name], name)
        self.assertEqual((slips.VIEW, revosti.STOPPED), (limits["VIEW_BYTES"], limits["STOPPED"]))
        self.assertEqual(sorted(refusals.values()), [0, *sorted(REFUSALS)])

    def test_version(self):
        self.assertEqual(re.findall(r'^#define REVOSTI_VERSION "(.*)"$', self.TEXT, re.M), [revosti.__version__])
        parts = [re.search(rf"^#define REVOSTI_VERSION_{name} (\d+)$", self.TEXT, re.M)[1] for name in ("MAJOR", "MINOR", "PATCH")]
        self.assertEqual(".".join(parts), revosti.__version__)
