"""Sets of marks by another way than the tools': as text, a digit an edge."""

import random

# The bytes of a packed set: the number of edges has each rest by 4.
SIZES = {4: 2, 5: 3, 6: 4, 7: 6, 8: 7, 9: 9, 10: 12, 11: 14, 12: 17, 177: 3894, 178: 3939, 179: 3983, 180: 4028}


def packed(marks):
    """The packed set of these marks: one number in base 4, its lowest digit the first edge."""
    digits = "".join(str(mark) for mark in reversed(marks))
    return bytearray(int(digits, 4).to_bytes((len(marks) + 3) // 4, "little"))


def unpacked(data):
    """All pairs of bits, those of the first edge first, unused ones too."""
    bits = "".join(f"{byte:08b}" for byte in reversed(data))
    return [int(bits[end - 2:end], 2) for end in range(len(bits), 0, -2)]


def some(n, seed=0):
    """Marks of n points, some of each."""
    r = random.Random(1000 * seed + n)
    return [r.randrange(3) for _ in range(n * (n - 1) // 2)]
