"""Numbers and names in sentences, and complaints."""


class Complaint(Exception):
    """Bad use, or a text, a set or a board that is none: the whole sentence, which names the file."""

    status = 2


class CannotRun(Complaint):
    """Something outside the files' contents fails: a file, standard output, the library."""

    status = 3


def counted(number, noun):
    """A number with its noun: 1 edge, 2 edges."""
    return f"{number:,} {noun}" + ("" if number == 1 else "s")


def are(number):
    """The verb for so many things."""
    return "is" if number == 1 else "are"


def either(words):
    """Some words to choose from: a, b or c."""
    *first, last = words
    return f"{', '.join(first)} or {last}" if first else last


def listed(words):
    """Some words: a, b and c."""
    *first, last = words
    return f"{', '.join(first)} and {last}" if first else last
