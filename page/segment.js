// The segment of K that a case puts in another order (Paper 10: a stretch), and what its points lack, in words: as
// tools/revosti_command/segment.py says it. Whether a new order settles its case is for the marker to say.
import { ends, name, place } from "revosti/edges";
import { are, grouped, listed, say } from "revosti/say";

const MOST_POINTS = 12; // points that a sentence names
const pathName = points => points.join("-");

// The paths of K from u to v, no point twice.
function ways(k, u, v) {
    const found = [], begun = [[u]];
    while (begun.length) {
        const path = begun.pop(), last = path[path.length - 1];
        if (last === v) found.push(path);
        else begun.push(...ends(k, last).filter(w => !path.includes(w)).map(w => [...path, w]));
    }
    return found;
}

// The points of the segment of K from u to v, ends included: the one path, with an inner point; null where there is
// none.
export function segmentOf(k, u, v) {
    const found = ways(k, u, v);
    return found.length === 1 && found[0].length > 2 ? found[0] : null;
}

// A path with its length.
export function measuredPath({ n, table }, points) {
    const legs = points.slice(1).map((point, at) => [points[at], point]);
    return { points, legs, length: legs.reduce((sum, [a, b]) => sum + (a === b ? 0 : table[place(n, a, b)]), 0) };
}

// Why K has no segment from u to v.
export function noSegment(k, u, v) {
    const off = [...new Set([u, v])].filter(p => !ends(k, p).length), found = ways(k, u, v);
    if (u === v) return say("same_stretch_ends", { point: u });
    if (off.length) {
        return say("off_k", { points: `${off.length > 1 ? "Points" : "Point"} ${listed(off.map(String))}`, are: are(off.length) });
    }
    if (found.length > 1) return say("closed_tour", { u, v, paths: listed(found.sort(byPoints).map(pathName)) });
    if (found.length) return say("edge_of_k", { edge: name(u, v) });
    return say("no_path", { u, v, one: pathName(lineAt(k, u)), other: pathName(lineAt(k, v)) });
}

// The order of two lists of numbers.
function byPoints(p, q) {
    const at = p.findIndex((point, i) => point !== q[i]);
    return at < 0 ? 0 : at >= q.length ? 1 : p[at] - q[at];
}

// The whole path of K that a point lies on, from its lower end.
function lineAt(k, point) {
    const reached = [...new Set(k.flat())].filter(p => ways(k, point, p).length);
    const first = reached.filter(p => ends(k, p).length === 1).sort((p, q) => p - q)[0] ?? point;
    return reached.flatMap(p => ways(k, first, p)).reduce((best, way) => (way.length > best.length ? way : best), []);
}

// What a chain lacks that is to name the inner points of a segment, each once; null where it lacks nothing.
export function otherPoints(points, named) {
    const inner = points.slice(1, -1), times = p => named.filter(q => q === p).length, once = [...new Set(named)].sort((p, q) => p - q);
    const surplus = once.filter(p => !inner.includes(p));
    const faults = [["order_lacks", inner.filter(p => !times(p))], ["order_twice", once.filter(p => times(p) > 1)],
        ["order_other", surplus]];
    const told = faults.filter(([, found]) => found.length).map(([phrase, found]) =>
        say(phrase, { points: some(found), are: are(found.length) }));
    return told.length ? [say("stretch_is", { path: pathName(points) }), ...told].join(" ") : null;
}

// Points by number, the first few of them.
function some(points) {
    const shown = points.slice(0, MOST_POINTS).map(String);
    return points.length > MOST_POINTS ? shown.join(", ") + say("and_so_on") : listed(shown);
}

// By how much a new order is not shorter; null where it is.
export function notShorter(old, order) {
    const by = order.length - old.length;
    if (by < 0) return null;
    const more = by > 0 ? say("longer_by", { by: grouped(by) }) : say("as_long");
    const [one, other] = [old, order].map(path => pathName(path.points));
    return say("not_shorter", { old: one, long: `${grouped(old.length)} long`, order: other, length: grouped(order.length), more });
}
