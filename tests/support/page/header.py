"""The functions of include/revosti.h: their names, and what they take."""

import re
from typing import NamedTuple

from tests.support import ROOT

HEADER = ROOT / "include/revosti.h"
PROTOTYPE = re.compile(r"^(u?int64_t) (revosti_\w+)\(([^)]*)\);", re.M)
INLINE = re.compile(r"^static inline \w+ (revosti_\w+)\(", re.M)
CONSTANT = re.compile(r"^    REVOSTI_(\w+) = (\d+)", re.M)
WIDTHS = {"uint16_t": 16, "uint32_t": 32, "uint64_t": 64}
BUFFER = 0


class Parameter(NamedTuple):
    """What is handed to a function: a number of so many bits, or a buffer (0), which it may write to or not."""

    name: str
    width: int
    written: bool


class Function(NamedTuple):
    """A function: whether its answer has a sign, its name, and what it takes."""

    signed: bool
    name: str
    parameters: tuple[Parameter, ...]


def parameters(text):
    """The parameters of a prototype; a buffer's length goes with it."""
    for words in (part.replace("*", "* ").split() for part in text.split(",")):
        if words[-1].endswith("_len"):
            continue
        yield Parameter(words[-1], BUFFER if "*" in words else WIDTHS[words[0]], "*" in words and words[0] != "const")


def functions():
    """Every function that is compiled, by its name."""
    text = HEADER.read_text(encoding="utf-8")
    return {name: Function(answer == "int64_t", name, tuple(parameters(given))) for answer, name, given in PROTOTYPE.findall(text)}


def inline():
    """The names of the functions that the header itself defines."""
    return INLINE.findall(HEADER.read_text(encoding="utf-8"))


def constants():
    """The numbers of the header."""
    return {name: int(number) for name, number in CONSTANT.findall(HEADER.read_text(encoding="utf-8"))}


def in_script(name):
    """The name of a function in page/revosti.js: revosti_mark_sheet is markSheet there."""
    first, *others = name.removeprefix("revosti_").split("_")
    return first + "".join(word.capitalize() for word in others)
