// The many edges of a board on a canvas: open through, pending dotted, struck dashed and lighter. The more edges, the
// lighter each of them.
import { NAMES, edgeCount, markAt } from "revosti/edges";
import { clipped } from "revosti/view";

const LOOKS = {
    open: { width: 1.3, dash: [], most: 0.85, least: 0.045, many: 60 },
    struck: { width: 1, dash: [4, 5], most: 0.95, least: 0.2, many: 80 },
    pending: { width: 2.2, dash: [2, 5], most: 1, least: 0.38, many: 120 },
};
const ORDER = ["open", "struck", "pending"];
const CROWD = 300; // edges of a kind from which on they are drawn thin

const ROOM = 700; // pixels; in a smaller picture many edges lie closer and are drawn lighter

// An opacity that falls as the number of edges grows.
function faint(count, { most, least, many }, side) {
    const crowd = Math.min(1, many / Math.max(count, 1)), room = count > many ? Math.min(1, Math.max(0.4, side / ROOM)) : 1;
    return Math.max(least * room, Math.min(most, most * Math.sqrt(crowd) * room));
}

// Draws the edges of a set, those of the kinds that are shown. `back` makes all of them step back. Answers how many of
// each.
export function drawEdges(canvas, spots, marks, { shown, colours, back = 1, ratio = 1 }) {
    const pen = canvas.getContext("2d"), wide = canvas.width / ratio, high = canvas.height / ratio;
    pen.setTransform(ratio, 0, 0, ratio, 0, 0);
    pen.clearRect(0, 0, wide, high);
    const fans = fansOf(spots, marks, wide, high), drawn = {};
    for (const kind of ORDER) {
        drawn[kind] = shown[kind] ? fans[kind].count : 0;
        if (!drawn[kind]) continue;
        const look = LOOKS[kind], crowded = fans[kind].count > CROWD;
        pen.strokeStyle = crowded && kind === "open" ? colours.crowd : colours[kind];
        pen.globalAlpha = faint(fans[kind].count, look, Math.min(wide, high)) * back;
        pen.lineWidth = crowded ? Math.min(look.width, 1) : look.width;
        pen.setLineDash(crowded && kind === "pending" ? [1.5, 4] : look.dash);
        fans[kind].paths.forEach(path => pen.stroke(path));
    }
    pen.globalAlpha = 1;
    return drawn;
}

// For each kind, the number of its edges, and one path for each lower point: so its fan does not darken around the
// hole.
function fansOf(spots, marks, wide, high) {
    const n = spots.length, fans = { open: { count: 0, paths: [] }, struck: { count: 0, paths: [] }, pending: { count: 0, paths: [] } };
    let at = 0;
    for (let a = 0; a < n - 1; a++) {
        const paths = {};
        for (let b = a + 1; b < n; b++, at++) {
            const kind = NAMES[markAt(marks, at)], piece = clipped(spots[a], spots[b], wide, high);
            fans[kind].count++;
            if (!piece) continue;
            paths[kind] ??= new Path2D();
            paths[kind].moveTo(piece[0], piece[1]);
            paths[kind].lineTo(piece[2], piece[3]);
        }
        for (const [kind, path] of Object.entries(paths)) fans[kind].paths.push(path);
    }
    return at === edgeCount(n) ? fans : null;
}

// The colours of the page, as its style has them now.
export function coloursOf(element) {
    const style = getComputedStyle(element);
    return Object.fromEntries([...ORDER, "crowd"].map(kind => [kind, style.getPropertyValue(`--${kind}`).trim()]));
}
