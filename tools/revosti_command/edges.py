"""Edges and sets of them, and the names of the rules (01, Points, lengths, marks)."""

from itertools import combinations

RULES = {1: "EUC_2D", 2: "CEIL_2D", 3: "ATT", 4: "MAN_2D", 5: "MAX_2D"}  # TSPLIB's names


def edge(a, b):
    """An edge, lower point first."""
    return (a, b) if a < b else (b, a)


def name(a, b):
    """An edge in words, lower point first."""
    return f"{min(a, b)}-{max(a, b)}"


def path_name(points):
    """A path in words, in its order."""
    return "-".join(map(str, points))


def edges(n):
    """All edges, in edge order."""
    return list(combinations(range(1, n + 1), 2))


def edge_count(n):
    """How many edges there are."""
    return n * (n - 1) // 2


def degree(k, point):
    """The number of edges of K at a point."""
    return sum(point in e for e in k)


def ends(k, point):
    """The other ends of the edges of K at a point."""
    return [a if b == point else b for a, b in k if point in (a, b)]
