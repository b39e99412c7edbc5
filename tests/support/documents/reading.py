"""What a document says by its code texts, those between backquotes.

A code text is a path (it has a slash, or is a file of the tree's own languages), an option, a name (one word, OWNER::MEMBER too) or a call
NAME(..). Anything else is a line that somebody types or reads: there the paths, the options, the command of a program that has commands
and each word that can only be a name (marks_of, markSheet) count. Blocks of code between fences are left out. Links to files count, too.
"""

import re
from itertools import takewhile

FENCED = re.compile(r"^```.*?^```$", re.S | re.M)
SPAN = re.compile(r"`([^`\n]+)`")
LINK = re.compile(r"\]\(([^)\s:]+)\)")

OPTION = re.compile(r"--?\w[\w-]*")
PATH = re.compile(r"[\w.+-]+(?:/[\w.+-]+)*/|[\w.+-]+(?:/[\w.+-]+)+|[\w-]+\.(?:antt|rt|md|py|c|h|edit)")
NAME = re.compile(r"[^\W\d][\w?]*(?:-[\w?]+)*(?:::\w+)?")
CALL = re.compile(r"(\w+)\(.*\)")
ONLY_A_NAME = re.compile(r"[a-z][a-z\d]*(?:[A-Z_][A-Za-z\d]+)+")
BUILT = "target/"
COMMANDED = ("bin/revosti", "tools/sheet")  # programs whose first word is a command

JOINS = re.compile(r"\**(?:,| and|, and) \**")  # `a`, `b` and `c`
OPENS = re.compile(r"\**,? \(")                   # `name` (`file`)
LEADS = re.compile(r"(?:,|:)? \(?\**")            # `file`, `name`; `file`: `name`; `file` (`name`)
COLON = re.compile(r": \**")                      # `crate`: `name`
ROW = re.compile(r"\|(.*)\|\s*")


class Span:
    """A code text with the text before and after it in its block."""

    def __init__(self, text, before, after):
        self.text, self.before, self.after = text, before, after
        self.is_path = bool(PATH.fullmatch(text)) and not text.startswith(BUILT)
        self.is_name = not self.is_path and bool(NAME.fullmatch(text))


def spans(block):
    """The code texts of a block, in order."""
    parts = SPAN.split(block)
    return [Span(text, before, after) for before, text, after in zip(parts[::2], parts[1::2], parts[2::2])]


def blocks(text):
    """The paragraphs, list items and table rows of a document, each with the heading that it stands under."""
    heading, lines = "", []
    for line in FENCED.sub("", text).split("\n") + [""]:
        if lines and (not line.strip() or re.match(r"#|\||\s*(?:[-*]|\d+\.) ", line)):
            yield heading, " ".join(lines)
            lines = []
        heading = line if line.startswith("#") else heading
        lines += [line.strip()] if line.strip() else []


def words(text):
    """What a code text that is no path and no name says: (kind, word) of each word that counts."""
    call = CALL.fullmatch(text)
    if call:
        yield "name", call[1]
        return
    program, _, rest = text.partition(" ")
    if program in COMMANDED and rest and not OPTION.match(rest):
        yield "command", rest.split()[0]
    for word in re.split(r"[\s()\[\],;]+", text):
        if OPTION.fullmatch(word):
            yield "option", word
        elif "/" in word and PATH.fullmatch(word) and not word.startswith(BUILT):
            yield "path", word
        elif ONLY_A_NAME.fullmatch(word):
            yield "name", word


def run(found, places, first):
    """The names at these places one after the other, the first reached by one text and the others by commas and the like."""
    fits = lambda k: found[k].is_name and (first if k == places[0] else JOINS).fullmatch(found[k].before)
    return [found[k].text for k in takewhile(fits, places)] if places else []


def within(found, i):
    """The names that a text puts behind the crate at place i, after a colon."""
    return run(found, range(i + 1, len(found)), COLON)


def beside(found, i):
    """The names that a text puts beside the file at place i: `a`, `b` (`file`); (`a`, `b`, `file`); `file`: `a`, `b`."""
    names = run(found, range(i + 1, len(found)), LEADS)
    closing = found[i].before == ", " and found[i].after.startswith(")")
    if closing or OPENS.fullmatch(found[i].before):
        for k in range(i - 1, -1, -1):
            if not found[k].is_name:
                break
            names.append(found[k].text)
            if not JOINS.fullmatch(found[k].before):
                break
    return names


def anchors(text):
    """What a link names the headings of a document by."""
    headings = re.findall(r"^#+ (.*)$", FENCED.sub("", text), re.M)
    return {re.sub(r"[^\w -]", "", heading.lower()).replace(" ", "-") for heading in headings}


def rows(text):
    """The rows of a document's tables, each as (heading of the column, cell) in order."""
    head = None
    for line in FENCED.sub("", text).split("\n"):
        row = ROW.fullmatch(line)
        cells = [cell.strip() for cell in row[1].split("|")] if row else None
        if row and head and len(cells) == len(head):
            yield list(zip(head, cells))
        head = cells if not row or head is None else head


def defining(row):
    """The code texts of a row that its files define, and these: where a column is headed File or Where, all but quoted words."""
    files = [cell for head, cell in row if head in ("File", "Where")]
    names = [cell for head, cell in row if head not in ("File", "Where") and not head.endswith("words")]
    return [spans(" ".join(names)), spans(" ".join(files + names))] if files else [[], []]
