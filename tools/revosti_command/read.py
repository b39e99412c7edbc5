"""Text to the pieces of a sheet (pack)."""

from typing import NamedTuple

from .edges import RULES
from .parts import CROSSING, LINE, MAX_16, MAX_32, POINT, SPLIT, STRETCH, STRETCH_POINT, ZERO_IN, Beside, Parts, Record
from .phrases import say
from .scan import scan

NUMBERS = {name: rule for rule, name in RULES.items()}  # of the rules, by name


class Sheet(NamedTuple):
    """The pieces that a text gives, and the line of text of each record."""

    parts: Parts | Beside
    lines: list


def pack(text):
    """The sheet that a text describes. Raises BadText."""
    lines = scan(text)
    if lines[0].peek() == "bytes":
        tail = read_bytes(lines)
        close(lines, say("bytes_or_end"))
        return Sheet(Parts(None, None, [], [], tail), [])
    rule = read_rule(lines)
    n, cut = read_count(lines)
    if cut:
        return Sheet(read_cut(lines, rule, n), [])
    return read_rest(lines, Parts(rule, n, [read_point(lines, i, n) for i in range(1, n + 1)], [], b""))


def pack_beside(board, text):
    """The sheet of a board and of a text that has no board. Raises BadText."""
    lines = scan(text)
    if lines[0].peek() in ("rule", "points"):
        lines[0].fail(say("board_is_beside", found=lines[0].found()))
    return read_rest(lines, board)


def read_rest(lines, board):
    """The sheet of a board, which is pieces without records, and the records behind it."""
    chains = read_records(lines)
    tail = read_bytes(lines)
    close(lines, say("end_of_text") if tail else after_records(chains))
    return Sheet(board._replace(records=chains.finished(), tail=tail), chains.lines)


def after_records(chains):
    """What may stand after the records read so far."""
    return say("record_or_bytes") if chains.lines else '"strike"'


def close(lines, wanted):
    """The text ends here."""
    if not lines[0].end_of_text:
        lines[0].missed(wanted)


def read_rule(lines):
    """The line `rule R`, by number or by name. A text of bytes alone is read
    before it comes to this."""
    line = lines[0]
    line.word("rule", "bytes")
    named = line.peek() in NUMBERS
    rule = NUMBERS[line.word(*NUMBERS)] if named else line.integer(say("a_rule"), MAX_32)
    line.end()
    lines.popleft()
    return rule


def read_count(lines):
    """The line `points N` or `points N, cut`."""
    line = lines[0]
    line.word("points")
    n = line.integer(say("count"), MAX_32)
    cut = line.take(",", "cut")
    if line.peek():
        line.missed(say("cut_or_end"))
    lines.popleft()
    return n, cut


def read_point(lines, i, n):
    """The line of point i: its number and two coordinates."""
    line = lines[0]
    if not line.starts_number():
        line.missed(say("point_of", i=i, n=n))
    number = line.integer(say("point_number"), MAX_32)
    if number != i:
        line.at = 0
        line.missed(say("point_of", i=i, n=n))
    x = line.integer(say("first_coordinate"), MAX_32)
    y = line.integer(say("second_coordinate"), MAX_32)
    line.end()
    lines.popleft()
    return x, y


def read_cut(lines, rule, n):
    """The points and bytes of a file that ends inside the coordinates."""
    points = []
    while lines[0].starts_number():
        points.append(read_point(lines, len(points) + 1, n))
    last = lines[0]
    tail = read_bytes(lines)
    close(lines, say("bytes_or_end" if tail else "point_or_end"))
    if len(points) * POINT.size + len(tail) >= n * POINT.size:
        last.at = 0
        last.fail(say("fewer_points", n=n))
    whole = len(tail) // POINT.size * POINT.size
    points += POINT.iter_unpack(tail[:whole])
    return Parts(rule, n, points, [], tail[whole:])


def read_bytes(lines):
    """The bytes of all `bytes` lines here."""
    data = bytearray()
    while lines[0].peek() == "bytes":
        line = lines.popleft()
        line.word("bytes")
        while line.peek():
            data.append(line.byte())
    return bytes(data)


def read_records(lines):
    """All record lines here."""
    chains = Chains()
    readers = {"strike": read_strike, "pair": read_pair, "point": read_visit,
               "record": read_raw, "unused": read_unused}
    while lines[0].peek() in readers:
        line = lines.popleft()
        reader = readers[line.peek()]
        reader(line, chains)
        line.end()
    return chains


def read_strike(line, chains):
    """`strike A-B, split at C` and options."""
    chains.place(line)
    line.word("strike")
    a, b = read_edge(line)
    line.word(",")
    chains.add_split(line, LINE, a, b)


def read_pair(line, chains):
    """`pair A-B:` and a split, a crossing or a new order."""
    chains.place(line)
    line.word("pair")
    a, b = read_edge(line)
    line.word(":")
    match line.peek():
        case "split":
            chains.add_split(line, SPLIT, a, b)
        case "crossing":
            read_crossing(line, chains, a, b)
        case "order":
            read_order(line, chains, a, b)
        case _:
            line.missed(say("a_closing"))


def read_crossing(line, chains, a, b):
    """`crossing P-Q, centres R S`."""
    line.word("crossing")
    u, v = read_edge(line)
    line.word(",")
    line.word("centres")
    c, d = read_point_number(line), read_point_number(line)
    chains.add(line, [CROSSING, a, b, u, v, c, d, 0], read_options(line, ("next",)))


def read_order(line, chains, a, b):
    """`order U-X-..-V`, all points on the line, or `order from U to V`, with a line for each point under it."""
    line.word("order")
    below = line.take("from")
    if not below and not line.starts_number():
        line.missed(say("point_or_from"))
    u, *points, v = read_ends(line) if below else read_path(line)
    options = read_options(line, (*ZERO_IN[STRETCH], "first", "next"))
    chains.add(line, fields(STRETCH, options, a=a, b=b, u=u, v=v), options, "point" if below else None)
    chains.add_points(line, points)


def read_visit(line, chains):
    """`point X` and options: a point of a new order."""
    chains.place(line)
    line.word("point")
    a = read_point_number(line)
    options = read_options(line, (*ZERO_IN[STRETCH_POINT], "next"))
    chains.add(line, fields(STRETCH_POINT, options, a=a), options)


def fields(kind, options, **known):
    """The eight numbers of a record: those that are known, those that its options give, else 0."""
    return [kind, *(known.get(name, options.get(name, 0)) for name in Record._fields[1:])]


def read_raw(line, chains):
    """`record` and eight numbers: a member of its chain of any kind."""
    chains.place(line)
    line.word("record")
    numbers = read_eight(line)
    chains.add(line, numbers, {"first": numbers[6], "next": numbers[7]})


def read_unused(line, chains):
    """`unused` and eight numbers: a record that no chain reaches."""
    if not chains.lines:
        line.fail(say("first_unused"))
    line.word("unused")
    chains.append(line, read_eight(line), {})


def read_eight(line):
    """The eight numbers of a record."""
    return [line.integer(say("number_of_8", i=i), MAX_16) for i in range(1, 9)]


def read_point_number(line):
    """A point."""
    return line.integer(say("a_point"), MAX_16)


def read_edge(line):
    """Two points with a hyphen between."""
    a = read_point_number(line)
    line.word("-")
    return a, read_point_number(line)


def read_ends(line):
    """Two points with "to" between."""
    u = read_point_number(line)
    line.word("to")
    return u, read_point_number(line)


def read_path(line):
    """Two points or more with hyphens between."""
    points = [*read_edge(line)]
    while line.take("-"):
        points.append(read_point_number(line))
    return points


def read_options(line, words):
    """Options such as `, next 7`, each at most once, in the order of `words`."""
    options = {}
    while line.peek() and words:
        if not line.take(","):
            line.missed(say("comma_or_end"))
        word = line.word(*words)
        options[word] = line.integer(say("number_after", word=word), MAX_16)
        words = words[words.index(word) + 1:]
    return options


class Level:
    """An open chain: its indentation, the number of the record that holds it
    (0 for the chain of lines), the word that its lines begin with, and the
    number of the last record in it (0 for none)."""

    def __init__(self, indent, owner, word):
        self.indent, self.owner, self.word, self.last = indent, owner, word, 0


class Chains:
    """The records so far, and the chains that a next line can continue."""

    def __init__(self):
        self.records = []   # lists of eight numbers, by number from 1
        self.given = []     # for each, the options that the text gives
        self.holds = []     # for each, the word of lines that can be indented under it, or None
        self.lines = []     # for each, its line of text
        self.levels = []

    def append(self, line, numbers, given, holds=None):
        """A record with the next number."""
        self.records.append(numbers)
        self.given.append(given)
        self.holds.append(holds)
        self.lines.append(line.number)

    def place(self, line):
        """Find the chain that a line continues, by its indentation, and hold
        its first word against that chain; "record" fits any."""
        line.only_blanks()
        if not self.levels:
            self.levels.append(Level(line.indent, 0, "strike"))
        if line.indent > self.levels[-1].indent:
            self.open(line)
        self.close(line)
        wanted, found = self.levels[-1].word, line.peek()
        if found not in (wanted, "record"):
            belongs = say(f"{found}_belongs", indent=self.levels[0].indent)
            line.fail(say("other_word", wanted=wanted, inside=say(f"inside_{wanted}"), found=found, belongs=belongs))

    def close(self, line):
        """Leave the chains that a line is too far left for."""
        known = [str(level.indent) for level in self.levels]
        while len(self.levels) > 1 and line.indent < self.levels[-1].indent:
            self.levels.pop()
        if line.indent != self.levels[-1].indent:
            line.fail(say("indentation", known=" or ".join(known), found=line.indent))

    def open(self, line):
        """Open the chain of cases or points of the record just read."""
        owner = self.levels[-1].last
        if not self.holds[owner - 1]:
            line.fail(say("no_further"))
        self.levels.append(Level(line.indent, owner, self.holds[owner - 1]))

    def add_split(self, line, kind, a, b):
        """A record that holds a split: `split at C` and options."""
        line.word("split")
        line.word("at")
        c = read_point_number(line)
        options = read_options(line, (*ZERO_IN[kind], "first", "next"))
        self.add(line, fields(kind, options, a=a, b=b, c=c), options, "pair")

    def add_points(self, line, points):
        """The points of the order just read, each a record behind the last."""
        last, word, field = len(self.records), "first", 6
        for point in points:
            self.append(line, fields(STRETCH_POINT, {}, a=point), {})
            self.link(line, last, word, field, len(self.records))
            last, word, field = len(self.records), "next", 7

    def add(self, line, numbers, options, holds=None):
        """A member of the chain that `place` has found."""
        for word, field in (("first", 6), ("next", 7)):
            numbers[field] = options.get(word, numbers[field])
        self.append(line, numbers, options, holds)
        level, number = self.levels[-1], len(self.records)
        if level.last:
            self.link(line, level.last, "next", 7, number)
        elif level.owner:
            self.link(line, level.owner, "first", 6, number)
        level.last = number

    def link(self, line, source, word, field, number):
        """Let an index that the text does not give lead to this record."""
        if word in self.given[source - 1]:
            return
        if number > MAX_16:
            line.at = 0
            line.fail(say("most_records", most=MAX_16, number=number))
        self.records[source - 1][field] = number

    def finished(self):
        """The records."""
        return [Record(*numbers) for numbers in self.records]
