"""The rules once more, in the plainest way: lengths, K and standing pairs (01, Points, lengths, marks; Standing pairs), and stretches
(02, Paper 10).

Tests hold the library against them; nothing that runs rests on them.
"""

from itertools import combinations, permutations
from math import isqrt

RULES = {1: "EUC_2D", 2: "CEIL_2D", 3: "ATT", 4: "MAN_2D", 5: "MAX_2D"}  # TSPLIB's names


def edge(a, b):
    """An edge, lower point first."""
    return (a, b) if a < b else (b, a)


def length_of(rule, p, q):
    """The length between two coordinate pairs under a rule from 1 to 5."""
    g, h = abs(p[0] - q[0]), abs(p[1] - q[1])
    s = g * g + h * h
    match RULES[rule]:
        case "EUC_2D":
            return (isqrt(4 * s) + 1) // 2
        case "CEIL_2D":
            return root_above(s)
        case "ATT":
            return root_above((s + 9) // 10)  # 10d² ≥ S where d² ≥ S/10 rounded up
        case "MAN_2D":
            return g + h
        case "MAX_2D":
            return max(g, h)


def root_above(s):
    """The least d with d² ≥ s."""
    root = isqrt(s)
    return root if root * root == s else root + 1


class Board:
    """Points with their lengths, and the edges struck."""

    def __init__(self, rule, points, struck):
        self.rule, self.points = rule, points
        self.n = len(points)
        self.struck = set(struck)

    def length(self, a, b):
        """l(ab)."""
        return length_of(self.rule, self.points[a - 1], self.points[b - 1])

    def path_length(self, points):
        """The length of a path."""
        return sum(self.length(a, b) for a, b in zip(points, points[1:]))

    def compatible(self, e, f):
        """01, Standing pairs, formula 1."""
        (p, q), (x, y), l = e, f, self.length
        return max(l(p, x) + l(q, y), l(p, y) + l(q, x)) >= l(p, q) + l(x, y)

    def moves(self, w, s, t, u, v):
        """Whether w moves: from between s and t to between u and v it saves."""
        l = self.length
        return l(s, t) + l(u, w) + l(v, w) < l(u, v) + l(s, w) + l(t, w)

    def movable(self, k):
        """Test 5 fails, of K with the pair: a point with two edges in it moves to another of its edges."""
        settled = [w for w in {p for e in k for p in e} if degree(k, w) == 2]
        return any(self.moves(w, *ends(k, w), *e) for w in settled for e in k if w not in e)

    def standing(self, k, c):
        """The pairs that stand at split point c under the edge set K."""
        legs = [x for x in range(1, self.n + 1) if x != c and self.can_join(k, c, x)]
        with_pair = {(x, y): k | {edge(c, x), edge(c, y)} for x, y in combinations(legs, 2)}
        return [pair for pair, larger in with_pair.items() if fits_tour(larger, self.n) and not self.movable(larger)]

    def can_join(self, k, c, x):
        """Tests 1 and 4 for one edge of the pair."""
        return edge(c, x) not in self.struck and all(self.compatible((c, x), e) for e in k)


def degree(k, point):
    """The number of edges of K at a point."""
    return sum(point in e for e in k)


def ends(k, point):
    """The other ends of the edges of K at a point."""
    return [a if b == point else b for a, b in k if point in (a, b)]


def paths(k, u, v):
    """Every path of K from u to v, ends included, no point twice."""
    inner = sorted({p for e in k for p in e} - {u, v})
    orders = [(u, *some, v) for count in range(len(inner) + 1) for some in permutations(inner, count)]
    return [order for order in orders if all(edge(a, b) in k for a, b in zip(order, order[1:]))]


def stretch(k, u, v):
    """The inner points of the stretch from u to v, or () where K has none: the one path, with an inner point."""
    found = paths(k, u, v) if u != v else []
    return found[0][1:-1] if len(found) == 1 else ()


def fits_tour(k, n):
    """Tests 2 and 3: no point with three edges, no cycle of fewer than n edges."""
    if any(degree(k, p) > 2 for e in k for p in e):
        return False
    groups, cycles = join_ends(k)
    return cycles == 0 or (len(k) == n and groups == 1)


def join_ends(k):
    """The number of groups of joined points, and of edges that close a cycle."""
    group = {p: p for e in k for p in e}
    cycles = 0
    for a, b in k:
        old, new = group[a], group[b]
        cycles += old == new
        group = {p: new if g == old else g for p, g in group.items()}
    return len(set(group.values())), cycles
