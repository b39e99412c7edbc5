"""Places for the holes' numbers, so that few of them meet a hole, another
number or the tour; and words that fit the legend."""

SIDES = ((1, -1), (-1, -1), (1, 1), (-1, 1), (0, -1), (0, 1), (1, 0), (-1, 0))  # best liked first
NEAR = 80     # pixels within which the tour matters to a number
STEP = 4      # pixels between the points at which the tour is looked at
OUTSIDE = 10_000
LETTERS = 28  # so many fit a column of the legend


def fitting(words, fewer):
    """The words of a row of the legend, or fewer where they do not fit."""
    return words if len(words) <= LETTERS else fewer


def place_labels(spots, radius, font, frame, legs):
    """The middle of the base line of each hole's number. `legs` are the
    tour's pieces, from spot to spot."""
    core = 0.7 * radius
    dots = [(x - core, y - core, x + core, y + core) for x, y in spots]
    track = [p for leg in legs for p in points_along(*leg)]
    placed, found = [], []
    for number, (x, y) in enumerate(spots, 1):
        close = [p for p in track if abs(p[0] - x) < NEAR and abs(p[1] - y) < NEAR]
        boxes = [box_at((x, y), side, radius, font, len(str(number))) for side in SIDES]
        best = min(boxes, key=lambda box: cost(box, dots, placed, close, frame))
        placed.append(best)
        found.append(((best[0] + best[2]) / 2, best[3]))
    return found


def points_along(p, q):
    """Points on the straight piece from p to q, some pixels apart."""
    steps = max(abs(q[0] - p[0]), abs(q[1] - p[1])) // STEP + 1
    return [(p[0] + (q[0] - p[0]) * i / steps, p[1] + (q[1] - p[1]) * i / steps)
            for i in range(steps + 1)]


def box_at(spot, side, radius, font, digits):
    """The box of a number of some digits that touches the hole on one side."""
    wide, high = 0.64 * font * digits, 0.74 * font
    gap = 0.7 * radius + 2 if all(side) else radius + 3
    x = spot[0] + side[0] * (gap + wide / 2)
    y = spot[1] + side[1] * (gap + high / 2)
    return x - wide / 2, y - high / 2, x + wide / 2, y + high / 2


def cost(box, dots, placed, track, frame):
    """How bad a box is: the areas that it shares, the tour in it, and leaving the frame."""
    shared = 2 * sum(overlap(box, other) for other in dots + placed)
    crossed = sum(box[0] <= x <= box[2] and box[1] <= y <= box[3] for x, y in track)
    inside = box[0] >= 0 and box[1] >= 0 and box[2] <= frame[0] and box[3] <= frame[1]
    return shared + 5 * STEP * crossed + (0 if inside else OUTSIDE)


def overlap(p, q):
    """The area that two boxes share."""
    wide = min(p[2], q[2]) - max(p[0], q[0])
    high = min(p[3], q[3]) - max(p[1], q[1])
    return wide * high if wide > 0 and high > 0 else 0
