"""TSPLIB texts: a board taken from one and written as one, and what was expected at a line that is refused (01, TSPLIB
texts).

Whether a text is one, and the line that is told, is what the module `revosti` answers. A text that is one is taken
apart here, and so are the lines before the one that is told.
"""

import re

from revosti import Refusal, tsplib_points

from .edges import RULES
from .parts import MAX_32, Beside, Parts
from .phrases import say
from .words import counted

NUMBERS = {name: rule for rule, name in RULES.items()}  # of the rules, by name
EXPLICIT, FORMAT = "EXPLICIT", "EDGE_WEIGHT_FORMAT"
SECTIONS = NODES, WEIGHTS = "NODE_COORD_SECTION", "EDGE_WEIGHT_SECTION"
NOUNS = {NODES: "coordinates", WEIGHTS: "weights", None: "numbers"}
VALUES = {"NAME": "any value", "COMMENT": "any value", "TYPE": "TSP", "DIMENSION": f"one whole number from 0 to {MAX_32}",
          "EDGE_WEIGHT_TYPE": f"{', '.join(NUMBERS)} or {EXPLICIT}", FORMAT: "UPPER_ROW"}
REAL = re.compile(r"[+-]?(\d+\.?\d*|\.\d+)([eE][+-]?\d+)?", re.ASCII)
SHOWN = 60  # characters of a line


class BadBoard(Exception):
    """A text or a sheet that gives no board: what is wrong, and at which line, 0 if it is none of one line."""

    def __init__(self, message, line=0):
        super().__init__(f", line {line}: {message}" if line else f": {message}")
        self.line, self.message = line, message


def read_text(data):
    """The board of a TSPLIB text, by coordinates or weights. Its lengths are for the library to read."""
    try:
        return Beside(tsplib_points(data), data, [], b"")
    except Refusal as refusal:
        raise BadBoard(complaint(lines_of(data), refusal.text_line), refusal.text_line) from refusal


def read_board(data):
    """The board of a TSPLIB text by coordinates, as the input of `mark` has it."""
    n, seen = read_text(data).n, Seen(lines_of(data)[:-1])
    if seen.explicit:
        raise BadBoard(f"the board has weights ({EXPLICIT}), and the input of mark has coordinates; "
                       "revosti mark, ask, explain and slip take it")
    return Parts(NUMBERS[seen.values["EDGE_WEIGHT_TYPE"]], n, [tuple(map(number, words[1:])) for words in seen.data], [], b"")


def kind_of(data):
    """The rule of a text that is one, in words, or that it has weights."""
    seen = Seen(lines_of(data)[:-1])
    name = seen.values["EDGE_WEIGHT_TYPE"]
    return say("by_weights") if seen.explicit else say("by_rule", rule=NUMBERS[name], name=name)


def lines_of(data):
    """The lines of a text, a character a byte; the last has no newline."""
    return data.decode("latin-1").split("\n")


def write_board(parts):
    """The board of a sheet as a TSPLIB text."""
    if parts.rule is None or parts.cut:
        raise BadBoard("the file ends inside the board")
    if parts.rule not in RULES:
        raise BadBoard(f"rule {parts.rule} has no name in TSPLIB")
    head = ["TYPE : TSP", f"DIMENSION : {parts.n}", f"EDGE_WEIGHT_TYPE : {RULES[parts.rule]}", NODES]
    nodes = [f"{i} {x} {y}" for i, (x, y) in enumerate(parts.points, 1)]
    return "\n".join([*head, *nodes, "EOF", ""])


def number(word):
    """The number that digits are, zeros in front at will."""
    return int(word.lstrip("0") or "0")


def is_number(word):
    """Whether a word is digits alone."""
    return word.isascii() and word.isdigit()


def above(word):
    """Whether a number needs more than 32 bits."""
    digits = word.lstrip("0")
    return len(digits) > len(str(MAX_32)) or number(digits) > MAX_32


class Seen:
    """What lines say that a text of the language begins with: the values by keyword, the section, the numbers of its
    lines."""

    def __init__(self, lines):
        self.values, self.section, self.data, self.ended = {}, None, [], False
        for line in lines:
            self.take(line)

    def take(self, line):
        """One line more."""
        if self.section:
            self.ended = line.strip(" ") == "EOF"
            self.data += [] if self.ended else [line.split()]
        elif ":" in line:
            keyword, value = keyword_line(line)
            self.values[keyword] = value
        else:
            self.section = line.strip(" ")

    @property
    def n(self):
        """The number of points, once it is known."""
        return number(self.values["DIMENSION"])

    @property
    def explicit(self):
        """Whether the text has weights."""
        return self.values.get("EDGE_WEIGHT_TYPE") == EXPLICIT

    @property
    def left(self):
        """How many nodes or weights are to come."""
        if self.section == NODES:
            return self.n - len(self.data)
        return self.n * (self.n - 1) // 2 - sum(map(len, self.data))

    def missing(self):
        """The keywords that a section wants and that are not there."""
        wanted = ["DIMENSION", "EDGE_WEIGHT_TYPE"] + ([FORMAT] if self.explicit else [])
        return [keyword for keyword in wanted if keyword not in self.values]

    def may_stand(self, keyword):
        """Whether a keyword may stand next, with some value."""
        with_rule = "EDGE_WEIGHT_TYPE" in self.values and not self.explicit
        return keyword == "COMMENT" or keyword not in self.values and not (keyword == FORMAT and with_rule)

    def expected(self):
        """What may stand next, in words."""
        if self.ended:
            return say("tsp_end")
        if self.section and self.left == 0:
            return say("tsp_eof", last=say("tsp_last_node" if self.section == NODES else "tsp_last_weight"))
        if self.section == NODES:
            return say("tsp_node", i=len(self.data) + 1, n=self.n)
        if self.section:
            return counted(self.left, "more weight")
        section = [] if self.missing() else [WEIGHTS if self.explicit else NODES]
        return either([*section, *(f"{keyword} :" for keyword in VALUES if self.may_stand(keyword))])


def keyword_line(line):
    """The keyword and the value of a line with a colon."""
    keyword, _, value = line.partition(":")
    return keyword.strip(" "), value.strip(" ")


def either(words):
    """One of some words."""
    *first, last = words
    return f"{', '.join(first)} or {last}" if first else last


def complaint(lines, at):
    """What was expected at a line that is refused, and what stands there. The last of the lines has no newline."""
    seen, line = Seen(lines[:at - 1]), lines[at - 1]
    if at == len(lines) and line and not seen.ended:
        return say("tsp_newline", line=shown(line))
    if at == len(lines) and not line:
        return say("tsp_ends", wanted=seen.expected())
    return (None if seen.section else of_header(seen, line) or of_section(seen, line)) or of_line(seen, line)


def of_header(seen, line):
    """What is wrong with a keyword line, or None where its keyword is none."""
    keyword, value = keyword_line(line)
    if ":" not in line or keyword not in VALUES:
        return None
    if keyword in seen.values:
        return say("tsp_second", keyword=keyword)
    if not seen.may_stand(keyword):
        return say("tsp_no_format", keyword=keyword, type=seen.values["EDGE_WEIGHT_TYPE"])
    if keyword == "EDGE_WEIGHT_TYPE" and value in NUMBERS:
        return say("tsp_explicit", keyword=keyword, value=shown(value))
    return say("tsp_value", values=VALUES[keyword], keyword=keyword, value=shown(value), hint=hint(seen, value))


def of_section(seen, line):
    """What is wrong with a section's name, or None where the line is none or it is the wrong one."""
    name = line.replace(":", "").strip(" ")
    if name in (*SECTIONS, "EOF") and ":" in line:
        return say("tsp_colon", name=name, line=shown(line))
    if name in SECTIONS and seen.missing():
        return say("tsp_above", keywords=" and ".join(seen.missing()), name=name)
    return None


def of_line(seen, line):
    """What was expected, and the line."""
    return say("tsp_line", wanted=seen.expected(), line=shown(line), hint=hint(seen, line))


def shown(line):
    """A line in words."""
    if not line.strip(" "):
        return say("tsp_blanks" if line else "tsp_nothing")
    text = line.encode("latin-1").decode("utf-8", "replace")
    text = text if len(text) <= SHOWN else f"{text[:SHOWN]}.."
    return '"' + "".join(c if c.isprintable() else c.encode("unicode_escape").decode() for c in text) + '"'


def hint(seen, line):
    """What often is wrong, in words."""
    words = line.split()
    real = [word for word in words if REAL.fullmatch(word) and not is_number(word)]
    large = [word for word in words if is_number(word) and above(word)]
    if "\t" in line:
        return say("tsp_tabs")
    if "\r" in line:
        return say("tsp_return")
    if real:
        return say("tsp_whole", noun=NOUNS[seen.section], word=shown(real[0]))
    return say("tsp_large", word=shown(large[0])) if large else ""
