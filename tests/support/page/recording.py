"""Calls with what the library answers to them, in one file for the page to replay.

All words are 32 bits, little-endian: the number of pieces, the number of words of calls, the length of each piece, the
calls, and behind them the pieces, bytes one after the other. A call is the number of its function; each number handed
in, one of 64 bits as two words, lower first; of each buffer the piece that it is; the answer as two words; the piece
that says what page/revosti.js makes of it; and of each buffer the piece that it is after the call.
"""

import json
import sys
from array import array
from collections import Counter

from tests.support.page.header import in_script
from tests.support.page.native import Native

LOW = 0xffffffff


class Recording:
    """A list of calls. `recording(name, ..)` makes one natively, records it, and answers as `Native` does."""

    def __init__(self):
        self.native = Native()
        self.names = list(self.native.functions)
        self.places = {name: place for place, name in enumerate(self.names)}
        self.pieces, self.calls = {}, array("I")
        self.met = {name: Counter() for name in self.names}  # how often each refusal

    def __call__(self, name, *given):
        answer, after = self.native(name, *given)
        self.met[name][answer & 0xff if name != "revosti_release" else 0] += 1
        words = [self.places[name]]
        for parameter, one in zip(self.native.functions[name].parameters, given):
            words += (self.piece(one),) if isinstance(one, bytes) else (one & LOW, one >> 32) if parameter.width == 64 else (one,)
        words += (answer & LOW, answer >> 32 & LOW, self.piece(outcome(name, answer).encode()))
        self.calls.extend(words + [self.piece(one) for one in after])
        return answer, after

    def piece(self, data):
        """The number of a piece."""
        return self.pieces.setdefault(data, len(self.pieces))

    def signatures(self):
        """Of each function its name, its name in page/revosti.js, and the widths of what it takes."""
        return [[name, in_script(name), [parameter.width for parameter in function.parameters]]
                for name, function in self.native.functions.items()]

    def write(self, file):
        """Writes the file."""
        assert sys.byteorder == "little"
        head = array("I", [len(self.pieces), len(self.calls), *map(len, self.pieces)])
        with open(file, "wb") as out:
            out.writelines((head.tobytes(), self.calls.tobytes(), *self.pieces))


def outcome(name, answer):
    """What page/revosti.js makes of an answer: a value as JSON, 64-bit numbers as text; or a refusal."""
    number = answer & 0xff
    record, lines = answer >> 8 & 0xffff, answer >> 24 & 0xffff
    match name.removeprefix("revosti_"):
        case "release":
            return json.dumps(str(answer))
        case "turn":
            return turned(answer, number, record, lines)
        case "mark_sheet" | "ask_sheet" | "mark_between" if number:
            return refused(answer, record, lines)
        case "tell_line" if number:
            return refused(answer, record)
        case "read_tsplib" | "tsplib_points" | "read_page" if number:
            return refused(answer, line=answer >> 8)
        case _ if number:
            return refused(answer)
        case "mark_sheet" | "ask_sheet" | "mark_between":
            return value({"lines": lines, "answer": str(answer)})
        case "check_tour":
            return value({"length": answer >> 16, "open": bool(answer >> 8 & 1)})
        case ("read_tsplib" | "tsplib_points" | "list_pairs" | "list_between" | "exchange_saving" | "move_saving" | "crossing_saving"
              | "write_page" | "next_desk" | "tell_line"):
            return value(answer >> 16)
        case _:
            return value(None)


def turned(answer, number, record, lines):
    """What a turn says."""
    desk = answer >> 48 & 0xff
    if not desk:
        return refused(answer) if number else value(None)
    verdict = {"refusal": number, "record": record, "lines": lines, "answer": str(answer)}
    return value({"desk": desk, "lineLeft": bool(answer >> 56 & 1)} | verdict)


def refused(answer, record=0, lines=0, line=0):
    """A refusal, as tests/support/page/replay.js says it."""
    return f"refused {answer & 0xff} {record} {lines} {line} {answer & 0xffffffffffffffff}"


def value(result):
    """A value as JSON, as a browser writes it."""
    return json.dumps(result, separators=(",", ":"))
