"""Measures a board, marks a strike sheet and prints the open edges."""
import sys
from itertools import combinations

sys.path.insert(0, sys.path[0] + "/../tools")
import revosti

n, square = 4, [(0, 0), (10, 0), (10, 10), (0, 10)]
sheet = [[1, 1, 3, 0, 0, 2, 0, 2], [1, 2, 4, 0, 0, 1, 0, 0]]
table, marks = revosti.measure(n, 1, square), revosti.fresh_marks(n)
revosti.mark_sheet(n, table, marks, sheet)
for (a, b), length in zip(combinations(range(1, n + 1), 2), table):
    if revosti.mark_of(n, marks, a, b) == revosti.OPEN:
        print(f"{a}-{b} is open, length {length}")
