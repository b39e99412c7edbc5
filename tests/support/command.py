"""Runs of the command, sheets, and tests that have a folder."""

import io
import struct
import subprocess
import tempfile
import unittest
from contextlib import ExitStack
from pathlib import Path
from unittest import mock

from tests.support import ROOT

from revosti.library import library

library()  # built, where it has to be, before a test looks at what a command says

TOOLS = ROOT / "tools"
PROGRAM = ROOT / "bin/revosti"
NINE = ROOT / "tests/command/nine.txt"  # a board of nine points; its sheet strikes 27 edges
UNKNOWN = "the set is of unknown origin"

SQUARE_POINTS = [(0, 0), (10, 0), (10, 10), (0, 10)]
SQUARE_RECORDS = [(1, 1, 3, 0, 0, 2, 0, 2), (1, 2, 4, 0, 0, 1, 0, 0)]
SQUARE_HEAD = "rule 1  # EUC_2D\npoints 4\n  1  0 0\n  2  10 0\n  3  10 10\n  4  0 10\n"


def binary(records=(), points=SQUARE_POINTS, rule=1, n=None, tail=b""):
    """The bytes of a file, made without the tools."""
    out = struct.pack("<II", rule, len(points) if n is None else n)
    out += b"".join(struct.pack("<II", *p) for p in points)
    return out + b"".join(struct.pack("<8H", *r) for r in records) + tail


class Run:
    """One run of the command in this process: status, output, complaint. What is said of a set's unknown origin is kept
    apart."""

    def __init__(self, *arguments, data=b""):
        from revosti_command.main import main
        out, err = io.TextIOWrapper(io.BytesIO()), io.StringIO()
        with ExitStack() as patches:
            patches.enter_context(mock.patch("sys.stdin", io.TextIOWrapper(io.BytesIO(data))))
            patches.enter_context(mock.patch("sys.stdout", out))
            patches.enter_context(mock.patch("sys.stderr", err))
            try:
                self.status = main(list(map(str, arguments)))
            except SystemExit as stop:
                self.status = stop.code
            out.flush()
        lines = err.getvalue().splitlines(keepends=True)
        self.notes = [line for line in lines if UNKNOWN in line]
        self.out, self.err = out.buffer.getvalue(), "".join(line for line in lines if UNKNOWN not in line)

    @property
    def text(self):
        """The output as text."""
        return self.out.decode("utf-8")

    @property
    def all(self):
        """Status, output and complaint."""
        return self.status, self.text, self.err


def start(*arguments, **streams):
    """A process of the command."""
    return subprocess.Popen([PROGRAM, *map(str, arguments)],
                            **{"stdin": subprocess.DEVNULL, "stdout": subprocess.PIPE, "stderr": subprocess.PIPE, **streams})


class Folder(unittest.TestCase):
    """Tests that have a folder."""

    def setUp(self):
        holder = tempfile.TemporaryDirectory()
        self.addCleanup(holder.cleanup)
        self.folder = Path(holder.name)

    def put(self, name, data):
        """A file with these bytes, or this text."""
        file = self.folder / name
        file.write_bytes(data.encode() if isinstance(data, str) else bytes(data))
        return file
