"""A reader of crates/examples/stdin, whose head says how a line is written, and the calls of its lines. The functions and what they take are
those of include/revosti.h."""

import ctypes
import re
from typing import NamedTuple

from tests.support import ROOT

from revosti.library import library

STDIN, STDOUT = (ROOT / "crates/examples" / name for name in ("stdin", "stdout"))
HEADER = ROOT / "include/revosti.h"

PROTOTYPE = re.compile(r"^u?int64_t revosti_(\w+)\(([^)]*)\);", re.M)
NUMBER = re.compile(r"uint(\d+)_t (\w+)")
ARGUMENT = re.compile(r' (\w+)=((?:"(?:[^"\\]|\\["\\n])*"|[^" ])+)')
ANSWER = re.compile(r" -> (-?\d+)")
VALUE = re.compile(r"(.+?)(?:/(\d+))?")
ITEM = re.compile(r'(?:(\d+)(?:\*(\d+))?|"((?:[^"\\]|\\.)*)")(,|$)')
ESCAPE = re.compile(r"\\(.)")
WIDTHS = {"table": 4, "low": 4, "high": 4, "coordinates": 4, "sheet": 2, "tour": 2, "list": 2}  # bytes; of the others 1
PLACES = {"table": 0, "low": 0, "marks": 1, "packed": 1, "high": 2, "text": 2, "desks": 2}  # buffers that stand for @; the others are 3


class Fault(Exception):
    """A line that cannot be read, or comes out otherwise; the text says why."""


class Line(NamedTuple):
    """A line: the function's name, its arguments, the answer that should come, and the buffers that should be left, as texts."""

    name: str
    given: list
    answer: int
    left: list


def functions():
    """What each function takes: names, with the bits of a number, or 0 for a buffer."""
    found = {}
    for name, text in PROTOTYPE.findall(HEADER.read_text(encoding="utf-8")):
        parts = [part.strip() for part in text.split(",")]
        found[name] = [(part.split("*")[1], 0) if "*" in part else (NUMBER.fullmatch(part)[2], int(NUMBER.fullmatch(part)[1]))
                       for part in parts if not part.endswith("_len")]
    return found


FUNCTIONS = functions()


def arguments(text, at):
    """The arguments from a place on, and the place behind them."""
    found = []
    while match := ARGUMENT.match(text, at):
        found.append(match.groups())
        at = match.end()
    return found, at


def read(text):
    """A line, read."""
    name = text.split(" ", 1)[0]
    if name not in FUNCTIONS:
        raise Fault(f"no such function: {name}")
    given, at = arguments(text, len(name))
    answer = ANSWER.match(text, at)
    if not answer or [label for label, _ in given] != [label for label, _ in FUNCTIONS[name]]:
        raise Fault("its arguments cannot be read")
    left, end = arguments(text, answer.end())
    order = [label for label, bits in FUNCTIONS[name] if bits == 0]
    if end != len(text) or [label for label in order if label in dict(left)] != [label for label, _ in left]:
        raise Fault("the buffers that should be left cannot be read")
    return Line(name, given, int(answer[1]), left)


def number(text, bits):
    """A number of so many bits."""
    if not text.isdecimal() or int(text) >> bits:
        raise Fault(f"no number of {bits} bits: {text}")
    return int(text)


def value(label, text):
    """The bytes of a buffer."""
    width, at, found = WIDTHS.get(label, 1), 0, bytearray()
    while at < len(text):
        match = ITEM.match(text, at)
        if not match or match[3] is not None and width > 1 or match[4] and match.end() == len(text):
            raise Fault(f"{label} cannot be read")
        if match[3] is None:
            found += number(match[1], 8 * width).to_bytes(width, "little") * int(match[2] or 1)
        else:
            found += ESCAPE.sub(lambda letter: "\n" if letter[1] == "n" else letter[1], match[3]).encode("ascii")
        at = match.end()
    return found


class Run:
    """Runs lines one after the other, since a buffer may be the one that was left."""

    def __init__(self):
        self.buffers = {}

    def lent(self, label, text):
        """A buffer, and how many of its bytes are lent."""
        body, part = VALUE.fullmatch(text).groups() if not text.endswith('"') else (text, None)
        place = PLACES.get(label, 3)
        if body == "@" and place not in self.buffers:
            raise Fault(f"{label}: no line before has one")
        buffer = self.buffers[place] if body == "@" else value(label, body)
        self.buffers[place] = buffer
        if part is not None and int(part) > len(buffer):
            raise Fault(f"{label}: more is lent than there is")
        return buffer, len(buffer) if part is None else int(part)

    def run(self, text):
        """Runs a line; a fault is raised."""
        line = read(text)
        values, buffers = [], {}
        for (label, bits), (_, given) in zip(FUNCTIONS[line.name], line.given, strict=True):
            if bits:
                values.append(number(given, bits))
            else:
                buffer, size = self.lent(label, given)
                buffers[label] = buffer
                values += [(ctypes.c_uint8 * size).from_buffer(buffer), size]
        left = {label: bytes(buffer) for label, buffer in buffers.items()}
        left |= {label: None if given == "?" else bytes(value(label, given)) for label, given in line.left}
        answer = getattr(library(), f"revosti_{line.name}")(*values)
        if answer != line.answer:
            raise Fault(f"the answer is {answer}")
        for label, should in left.items():
            if should is not None and buffers[label] != should:
                raise Fault(f"{label} is left as {list(buffers[label])}")


def lines():
    """The lines of the file that have an example, with their numbers."""
    for place, text in enumerate(STDIN.read_text(encoding="ascii").splitlines(), 1):
        if text and not text.startswith("#"):
            yield place, text
