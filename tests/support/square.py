"""01's square."""

from array import array

N = 4
POINTS = [(0, 0), (10, 0), (10, 10), (0, 10)]
TABLE = array("I", [10, 14, 10, 10, 14, 10])
LINES = [[1, 1, 3, 0, 0, 2, 0, 2], [1, 2, 4, 0, 0, 1, 0, 0]]
