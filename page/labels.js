// Places for the holes' numbers, so that few of them meet a hole, another number or a line: as
// tools/revosti_command/labels.py places them.

const SIDES = [[1, -1], [-1, -1], [1, 1], [-1, 1], [0, -1], [0, 1], [1, 0], [-1, 0]]; // best liked first
const NEAR = 60; // pixels within which another hole or a line matters to a number
const THICK = 3; // pixels that a thick line takes on each side
const STEP = 4; // pixels between the points at which a line is looked at

// The middle of the base line of each hole's number, as an offset from the hole. `lines` are pairs of spots.
export function placeLabels(spots, radius, font, lines) {
    const core = 0.8 * radius, track = lines.flatMap(([p, q]) => along(p, q)), placed = [];
    return spots.map((spot, at) => {
        const close = track.filter(p => near(p, spot));
        const dots = spots.filter(p => near(p, spot)).map(([x, y]) => [x - core, y - core, x + core, y + core]);
        const others = placed.filter(box => near([box[0], box[1]], spot));
        let best = null, least = Infinity;
        for (const side of SIDES) {
            const box = boxAt(spot, side, radius, font, String(at + 1).length), price = cost(box, [...dots, ...others], close);
            if (price < least) [best, least] = [box, price];
        }
        placed.push(best);
        return [(best[0] + best[2]) / 2 - spot[0], best[3] - spot[1]];
    });
}

const near = (p, spot) => Math.abs(p[0] - spot[0]) < NEAR && Math.abs(p[1] - spot[1]) < NEAR;

// Points on the straight piece from p to q, some pixels apart.
function along(p, q) {
    const steps = Math.min(400, Math.floor(Math.max(Math.abs(q[0] - p[0]), Math.abs(q[1] - p[1])) / STEP) + 1);
    return Array.from({ length: steps + 1 }, (_, i) => [p[0] + (q[0] - p[0]) * i / steps, p[1] + (q[1] - p[1]) * i / steps]);
}

// The box of a number of some digits that touches the hole on one side.
function boxAt([x, y], side, radius, font, digits) {
    const wide = 0.62 * font * digits, high = 0.74 * font, gap = side[0] && side[1] ? 0.7 * radius + 1.5 : radius + 2.5;
    const middle = [x + side[0] * (gap + wide / 2), y + side[1] * (gap + high / 2)];
    return [middle[0] - wide / 2, middle[1] - high / 2, middle[0] + wide / 2, middle[1] + high / 2];
}

// How bad a box is: the areas that it shares, and the lines in it.
function cost(box, others, track) {
    const shared = others.reduce((sum, other) => sum + overlap(box, other), 0);
    const inside = ([x, y]) => box[0] - THICK <= x && x <= box[2] + THICK && box[1] - THICK <= y && y <= box[3] + THICK;
    const crossed = track.filter(inside).length;
    return 2 * shared + 5 * STEP * crossed;
}

function overlap(p, q) {
    const wide = Math.min(p[2], q[2]) - Math.max(p[0], q[0]), high = Math.min(p[3], q[3]) - Math.max(p[1], q[1]);
    return wide > 0 && high > 0 ? wide * high : 0;
}
