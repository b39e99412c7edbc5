// Edges, sets of them, and marks in a packed set (docs/RULES.md, Points, lengths, marks).
import { OPEN, PENDING, STRUCK, edges as edgeCount, markOf, marksSize, place } from "revosti/answer";

export { OPEN, PENDING, STRUCK, edgeCount, markOf, marksSize, place };
export const NAMES = { [OPEN]: "open", [PENDING]: "pending", [STRUCK]: "struck" };

// An edge, lower point first, and its name.
export const edge = (a, b) => (a < b ? [a, b] : [b, a]);
export const name = (a, b) => edge(a, b).join("-");

// All edges, in edge order.
export function edges(n) {
    const found = [];
    for (let a = 1; a < n; a++) for (let b = a + 1; b <= n; b++) found.push([a, b]);
    return found;
}

// The mark at a place of a packed set.
export const markAt = (marks, at) => marks[at >> 2] >> 2 * (at & 3) & 3;

// Sets the mark of an edge in a packed set.
export function putMark(n, marks, a, b, mark) {
    const at = place(n, a, b), rank = 2 * (at & 3);
    marks[at >> 2] = marks[at >> 2] & ~(3 << rank) | mark << rank;
}

// How many edges have each mark, by name.
export function countMarks(n, marks) {
    const counts = [0, 0, 0, 0];
    for (let at = 0; at < edgeCount(n); at++) counts[markAt(marks, at)]++;
    return { struck: counts[STRUCK], pending: counts[PENDING], open: counts[OPEN] };
}

// The edges that are open in one set and not in another, in edge order.
export function changedEdges(n, before, after) {
    const found = [];
    for (let a = 1, at = 0; a < n; a++) {
        for (let b = a + 1; b <= n; b++, at++) if (markAt(before, at) === OPEN && markAt(after, at) !== OPEN) found.push([a, b]);
    }
    return found;
}

// The other ends of the edges of K, a list, at a point.
export const ends = (k, point) => k.filter(e => e.includes(point)).map(([a, b]) => (b === point ? a : b));

// Whether a list of edges has one.
export const has = (k, a, b) => k.some(e => name(...e) === name(a, b));

// A list of edges, each once, rising.
export function sortedEdges(list) {
    const found = new Map(list.map(e => [name(...e), edge(...e)]));
    return [...found.values()].sort((e, f) => e[0] - f[0] || e[1] - f[1]);
}
