"""Text into lines of tokens, with a place for every complaint."""

import re
from collections import deque

from .phrases import say

TOKEN = re.compile(r"#.*|([0-9A-Za-z_]+|\S)", re.DOTALL)  # group 1 is empty for a comment


class BadText(Exception):
    """A text that is no sheet: what is wrong, and at which line and column."""

    def __init__(self, line, column, message):
        super().__init__(f"line {line}, column {column}: {message}")
        self.line, self.column, self.message = line, column, message


def scan(text):
    """The lines that hold something, and the end of the text as a last one."""
    raw = text.split("\n")
    lines = [Line(i, s.rstrip("\r")) for i, s in enumerate(raw, 1)]
    used = [line for line in lines if line.tokens]
    end = Line(len(raw), "")
    end.end_of_text, end.end_column = True, len(raw[-1]) + 1
    return deque(used + [end])


class Line:
    """A line's tokens and a cursor over them. Each reading method takes the
    next token or raises BadText at its place."""

    def __init__(self, number, text):
        self.number = number
        self.text = text
        self.end_of_text = False
        self.tokens = [(m[1], m.start() + 1) for m in TOKEN.finditer(text) if m[1]]
        last = self.tokens[-1] if self.tokens else ("", 1)
        self.end_column = last[1] + len(last[0])
        self.at = 0

    @property
    def indent(self):
        """The number of blanks before the first token."""
        return self.tokens[0][1] - 1 if self.tokens else 0

    def peek(self):
        """The next token, or "" at the end."""
        return self.tokens[self.at][0] if self.at < len(self.tokens) else ""

    def column(self):
        """The column of the next token, or just past the last one."""
        return self.tokens[self.at][1] if self.at < len(self.tokens) else self.end_column

    def fail(self, message):
        """Raise BadText at the next token."""
        raise BadText(self.number, self.column(), message)

    def missed(self, wanted):
        """Raise BadText: something else was expected here."""
        self.fail(say("expected", wanted=wanted, found=self.found()))

    def found(self):
        """The next token in words."""
        if self.end_of_text:
            return say("end_of_text")
        token = self.peek()
        if not token:
            return say("end_of_line")
        return f'"{token}"' if token.isprintable() else say("character", code=ord(token))

    def starts_number(self):
        """Whether the next token is a number."""
        token = self.peek()
        return token.isascii() and token.isdigit()

    def word(self, *words):
        """Take one of these words or signs and return it."""
        if self.peek() not in words:
            self.missed(" or ".join(f'"{w}"' for w in words))
        self.at += 1
        return words[words.index(self.tokens[self.at - 1][0])]

    def take(self, *words):
        """Take these tokens if all of them follow; whether they did."""
        following = [t for t, _ in self.tokens[self.at:self.at + len(words)]]
        if following != list(words):
            return False
        self.at += len(words)
        return True

    def integer(self, what, limit):
        """Take a number from 0 to the limit."""
        if not self.starts_number():
            self.missed(what)
        digits = self.peek().lstrip("0") or "0"
        if len(digits) > 10 or int(digits) > limit:
            self.fail(say("from_0_to", what=what, limit=limit, digits=digits))
        self.at += 1
        return int(digits)

    def byte(self):
        """Take a byte as two hexadecimal digits."""
        if not re.fullmatch("[0-9A-Fa-f]{2}", self.peek()):
            self.missed(say("a_byte"))
        self.at += 1
        return int(self.tokens[self.at - 1][0], 16)

    def end(self):
        """Nothing may follow."""
        if self.peek():
            self.missed(say("end_of_line"))

    def only_blanks(self):
        """Indentation is in blanks, so that depth has one reading."""
        blanks = len(self.text) - len(self.text.lstrip(" "))
        if blanks < self.indent:
            raise BadText(self.number, blanks + 1, say("only_blanks"))
