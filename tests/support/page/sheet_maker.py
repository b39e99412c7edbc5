"""Sheets whose lines are accepted, and deep ones that are not: the library itself is asked which pair is due, and
whether a closing settles it.

A crossing with equal centres at the place of a missing case is refused by 15 where its pair is the due one, and by 14
where it is not.
"""

from itertools import combinations, permutations
from struct import pack

LINE, SPLIT, CROSSING, STRETCH, STRETCH_POINT = 1, 2, 3, 4, 5
FIRST, NEXT = 6, 7  # fields of a record: the first case, the next case or line
NO_CROSSING, EDGE_STRUCK = 15, 12
UNSETTLED = {15, 16, 23, 24}
KEPT = 3


def sheet_bytes(records):
    """A sheet's bytes."""
    return b"".join(pack("<8H", *record) for record in records)


def edge(a, b):
    """An edge, lower point first."""
    return (a, b) if a < b else (b, a)


def neighbours(known, point):
    """The points that K joins to one."""
    return [a if b == point else b for a, b in sorted(known) if point in (a, b)]


class Maker:
    """A sheet for a board that is made line by line, with so many questions at most."""

    def __init__(self, native, rng, n, table, marks, questions):
        self.native, self.rng, self.n, self.table, self.marks, self.left = native, rng, n, table, marks, questions
        self.records, self.last, self.refused = [], None, {}

    def fill(self):
        """Adds lines for edges that can be struck, the longest first, each split at a point with few pairs."""
        lengths = memoryview(self.table).cast("I")
        every = sorted(zip(lengths, combinations(range(1, self.n + 1), 2)), reverse=True)
        for _, (a, b) in every:
            for c in sorted(range(1, self.n + 1), key=lambda c: self.pairs(a, b, c))[:2]:
                if self.left < 0 or self.add_line(a, b, c):
                    break
        return self

    def pairs(self, a, b, c):
        """How many pairs stand at the first split of a line."""
        return self.native("revosti_list_pairs", self.n, self.table, self.marks, a, b, c, bytes(2 * self.n * self.n))[0] >> 16

    def judge(self):
        """Refusal and record of the sheet as it is. Of each refusal some sheets are kept."""
        self.left -= 1
        sheet = sheet_bytes(self.records)
        answer, _ = self.native("revosti_mark_sheet", self.n, self.table, self.marks, sheet)
        kept = self.refused.setdefault(answer & 0xff, [])
        if len(kept) < KEPT:
            kept.append(sheet)
        return answer & 0xff, answer >> 8 & 0xffff

    def add_line(self, a, b, c):
        """Adds a line with all its cases. Where that cannot be done, the sheet stays as it was."""
        kept = [list(record) for record in self.records]
        self.records.append([LINE, a, b, 0, 0, c, 0, 0])
        if self.last is not None:
            self.records[self.last][NEXT] = len(self.records)
        place = len(self.records) - 1
        if self.judge()[0] != EDGE_STRUCK and self.add_cases(place, {edge(a, b)}, c, 1) and self.judge()[0] == 0:
            self.last = place
            return True
        self.records = kept
        return False

    def add_cases(self, owner, known, c, depth):
        """Adds the cases of a split at c, and answers whether all are settled."""
        link, pair = (owner, FIRST), (0, 0)
        while pair := self.due(link, pair):
            place = len(self.records)
            self.records[link[0]][link[1]] = place + 1
            self.records.append([0] * 8)
            if self.left < 0 or not self.settle(place, pair, known | {edge(c, x) for x in pair}, depth):
                return False
            link = place, NEXT
        return True

    def due(self, link, last):
        """The pair that is due behind a pair, at a link; None where there is none."""
        place = len(self.records)
        self.records[link[0]][link[1]] = place + 1
        self.records.append([0] * 8)
        found = None
        for pair in combinations(range(1, self.n + 1), 2):
            if pair > last:
                self.records[place] = [CROSSING, *pair, 1, 2, 1, 1, 0]
                if self.judge() == (NO_CROSSING, place + 1):
                    found = pair
                    break
        self.records.pop()
        self.records[link[0]][link[1]] = 0
        return found

    def settle(self, place, pair, known, depth):
        """Settles the case at a place: by a crossing, a reordering, or a further split."""
        for closing in self.rng.sample((self.cross, self.reorder), 2):
            if closing(place, pair, known):
                return True
        for c in self.rng.sample(range(1, self.n + 1), 3 if depth < 3 else 0):
            del self.records[place + 1:]
            self.records[place] = [SPLIT, *pair, 0, 0, c, 0, 0]
            if self.add_cases(place, known, c, depth + 1):
                return True
        return False

    def settled(self):
        """Whether the closing at the end of the sheet settles its case; pairs may be left."""
        return self.judge()[0] not in UNSETTLED

    def cross(self, place, pair, known):
        """Tries each crossing."""
        centres = [p for p in range(1, self.n + 1) if len(neighbours(known, p)) == 2]
        for (p, q), (r, s) in ((e, two) for e in sorted(known) for two in permutations(centres, 2)):
            if not {p, q} & {r, s} and edge(r, s) not in known:
                self.records[place] = [CROSSING, *pair, p, q, r, s, 0]
                if self.settled():
                    return True
        return False

    def reorder(self, place, pair, known):
        """Tries some orders of the inner points of each path."""
        for path in paths(known):
            inner = path[1:-1]
            for order in self.rng.sample(list(permutations(inner)), min(3, 2 if len(inner) == 2 else len(inner))):
                del self.records[place + 1:]
                self.records[place] = [STRETCH, *pair, path[0], path[-1], 0, place + 2, 0]
                self.records += [[STRETCH_POINT, p, 0, 0, 0, 0, 0, place + 3 + i] for i, p in enumerate(order)]
                self.records[-1][NEXT] = 0
                if self.settled():
                    return True
        del self.records[place + 1:]
        return False

    def add_deep(self, a, b, splits):
        """A line with splits one inside another, at the due pair each; the sheet stops at one of them."""
        self.records = [[LINE, a, b, 0, 0, self.rng.randint(1, self.n), 0, 0]]
        while len(self.records) <= splits and (pair := self.due((len(self.records) - 1, FIRST), (0, 0))):
            self.records[-1][FIRST] = len(self.records) + 1
            self.records.append([SPLIT, *pair, 0, 0, self.rng.randint(1, self.n), 0, 0])
        self.judge()


def paths(known):
    """The paths in K with an inner point or more, up to six, between two ends each."""
    points = sorted({p for e in known for p in e})
    found = [[p] for p in points]
    for path in found:
        found += [[*path, q] for q in neighbours(known, path[-1]) if q not in path and len(path) < 8]
    return [path for path in found if 4 <= len(path) and path[0] < path[-1]]
