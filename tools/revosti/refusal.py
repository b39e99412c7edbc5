"""Refusals: what their numbers mean, in the words of 01, and the exception that has one."""

REFUSALS = {
    1: "n is outside 4 to 180.",
    2: "The coordinates are not 2n numbers, or the table has not n(n − 1)/2 places.",
    3: "The rule is outside 1 to 5.",
    4: "A coordinate is above 1,000,000.",
    5: "A table entry is above 2,000,000.",
    6: "The packed set has not n(n − 1)/8 bytes, rounded up, or has a mark of 3 or an unused bit set; "
       "in a conversion also, the byte set has not n(n − 1)/2 bytes or has a byte above 2.",
    7: "The sheet is not 1 to 4,000 whole records, or the file is under 8 bytes, "
       "ends inside the coordinates or is longer than 65,448 bytes.",
    8: "An index of the record is above the record count.",
    9: "An index of the record is not above the highest record entered.",
    10: "The record has the wrong kind for its chain, or a field is not 0: u or v in kinds 1 and 2, c in kind 4, "
        "b, u, v, c or d in kind 5.",
    11: "A point is outside 1 to n, or a = b; for a saving also, both ends of an edge taken out are the same.",
    12: "The edge is struck already.",
    13: "The case opens a seventh split; at most six splits lie one inside another.",
    14: "The pair is not the next standing one, or the chain ends with standing pairs left.",
    15: "The crossing's edge or centres break a condition: pq is an edge of K, the centres "
        "r and s are different and neither is p or q, each has exactly two edges in K, "
        "and rs is not in K.",
    16: "No labelling of the crossing saves on both moves.",
    17: "The tour is not n numbers, or not each point from 1 to n exactly once.",
    18: "The list has fewer than twice as many places as there are standing pairs.",
    19: "The text is no TSPLIB text as they are read here (docs/FORMATS.md).",
    20: "Something is pending: confirm or withdraw it first.",
    21: "Nothing is pending: there is nothing to confirm or withdraw.",
    22: "The buffer is too short: a view has six bytes, a page 25 a line, the desks 50, a told line as many as its "
        "sentences.",
    23: "K with the pair has no stretch from u to v, one path with an inner point, or the chain does not name its "
        "inner points, each once.",
    24: "The new order of the stretch is not shorter.",
    25: "A low length is above its high one.",
    26: "The page number is 0 or past the last.",
    27: "The text is not such a page.",
    28: "The desk is outside 1 to 8.",
    29: "The sheet of this desk still has a line.",
}


def meaning(number: int) -> str:
    """A refusal's meaning."""
    return REFUSALS.get(number, "This number is not one of 1 to 29.")


class Refusal(Exception):
    """A call that is refused: the number, the record at fault (0 where none is), the lines of a sheet that are accepted
    before it, and the line at fault of a TSPLIB text or a page (0 but for 19 and 27)."""

    def __init__(self, number: int, record: int = 0, lines: int = 0, text_line: int = 0) -> None:
        super().__init__(number, record, lines, text_line)
        self.number, self.record, self.lines, self.text_line = number, record, lines, text_line

    @property
    def words(self) -> str:
        """What the number means."""
        return meaning(self.number)

    def __str__(self) -> str:
        place = (f", record {self.record}" if self.record else "") + (f", line {self.text_line}" if self.text_line else "")
        return f"Refused, number {self.number}{place}: {self.words}"
