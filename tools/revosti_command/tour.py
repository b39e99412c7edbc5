"""Tours: from the command line, from a list of numbers in a file, or from a TSPLIB tour file; and the check in words
(01, Check a tour)."""

import re

from revosti import STRUCK, mark_of

from .edges import edge, name
from .parts import MAX_16
from .phrases import say
from .words import are, counted, listed

NUMBER = re.compile(r"[0-9]+")
SECTION = "TOUR_SECTION"
SHOWN = 40  # characters of a word


class BadTour(Exception):
    """A text that names no points."""


def read_tour(text):
    """The points that a text names, whether they are a tour or not: numbers with commas or blanks between, or a TSPLIB
    tour file."""
    if SECTION in text:
        return read_section(text)
    words = [word.strip() for word in text.split(",")] if "," in text else text.split()
    return [point(word) for word in words]


def read_section(text):
    """The points of a TSPLIB tour file: behind the section's name, up to -1, EOF or the end."""
    head, _, rest = text.partition(SECTION)
    kind = re.search(r"^\s*TYPE\s*:\s*(\S+)", head, re.M)
    if kind and kind[1] != "TOUR":
        raise BadTour(say("tour_type", kind=cut(kind[1])))
    words = rest.split()
    end = next((at for at, word in enumerate(words) if word in ("-1", "EOF")), len(words))
    return [point(word) for word in words[:end]]


def point(word):
    """A point. Whether the board has it is for the check to say."""
    digits = word.lstrip("0") or "0"
    if not NUMBER.fullmatch(word) or not word.isascii():
        raise BadTour(say("tour_word", word=cut(word)))
    if len(digits) > 5 or int(digits) > MAX_16:
        raise BadTour(say("tour_point", most=MAX_16, digits=cut(digits)))
    return int(digits)


def cut(word):
    """A word, not all of a long one."""
    return word if len(word) <= SHOWN else f"{word[:SHOWN]}.."


def legs(tour):
    """The edges of a tour."""
    return [edge(a, b) for a, b in zip(tour, tour[1:] + tour[:1])]


def struck_legs(n, marks, tour):
    """The edges of a tour that are struck."""
    return [e for e in legs(tour) if mark_of(n, marks, *e) == STRUCK]


def wrong_tour(n, tour):
    """What makes some points no tour, in words."""
    outside = [p for p in tour if not 1 <= p <= n]
    if outside:
        return say("tour_outside", point=outside[0], n=n)
    twice = sorted({p for p in tour if tour.count(p) > 1})
    if twice:
        return say("tour_twice", point=twice[0], times=counted(tour.count(twice[0]), "time"))
    missing = sorted(set(range(1, n + 1)) - set(tour))
    return say("tour_missing", point=missing[0]) if missing else None


def tell_tour(length, struck):
    """The check in words."""
    edges = counted(len(struck), "edge")
    words = say("tour_struck", edges=edges, are=are(len(struck)), names=listed([name(*e) for e in struck])) if struck else say("tour_open")
    return say("tour", length=f"{length:,}", edges=words)
