// The pairs that stand at a split, at any depth, from the proved marker itself: as tools/revosti_command/standing.py
// asks it.
//
// A sheet is made of the records from the line down to the split, and of one case more: the pair in question, closed by
// a crossing whose two centres are the same point. Marking gets to that case and says 15 where its pair is the next
// standing one, 14 where it is not. At the split points no edge is left open but those of K and the two of the pair.
import { OPEN, STRUCK, has, putMark, sortedEdges } from "revosti/edges";
import { Refused } from "revosti/lengths";
import { CROSSING, LINE, SPLIT } from "revosti/parts";

// The pairs that stand at the split of the last of some records, the first of them a line, each of the others a case of
// the one before. null where marking does not get there. The marks are a packed set with nothing pending.
export function standing(lengths, marks, way) {
    const k = edgesOf(way), c = way[way.length - 1].c, last = way.length + 1;
    const narrow = narrowed(lengths.n, marks, way.map(record => record.c), k);
    const likely = candidates(lengths, marks, k, c);
    if (!likely || probe(lengths, narrow, way, 1, 2).record !== last) return null;
    if (way.length === 1) return likely; // the list of one edge's pairs is theirs already
    return likely.filter(pair => {
        const { refusal, record } = probe(lengths, opened(lengths.n, narrow, c, pair), way, ...pair);
        return refusal === 15 && record === last;
    });
}

// K at the split of the last record.
export function edgesOf(way) {
    const inner = way.slice(1).flatMap((inside, at) => [inside.a, inside.b].map(end => [way[at].c, end]));
    return sortedEdges([[way[0].a, way[0].b], ...inner.filter(([c, end]) => c !== end)]);
}

// The pairs at c that stand under each edge of K by itself, or null: every pair that stands under K is one of them.
function candidates(lengths, marks, k, c) {
    try {
        const [first, ...others] = k.map(([a, b]) => lengths.pairs(marks, a, b, c));
        const sets = others.map(pairs => new Set(pairs.map(String)));
        return first.filter(pair => sets.every(set => set.has(String(pair))));
    } catch (refused) {
        if (refused instanceof Refused) return null;
        throw refused;
    }
}

// The marks with no edge open at some points but those of K.
function narrowed(n, marks, splits, k) {
    const narrow = marks.slice();
    for (const c of new Set(splits)) {
        for (let x = 1; x <= n; x++) if (x !== c && !has(k, c, x)) putMark(n, narrow, c, x, STRUCK);
    }
    return narrow;
}

// The marks with the two edges of a pair open.
function opened(n, marks, c, pair) {
    const wider = marks.slice();
    for (const x of pair) putMark(n, wider, c, x, OPEN);
    return wider;
}

// What marking answers for a case with a pair where the way ends.
function probe(lengths, marks, way, a, b) {
    const sheet = way.map((record, above) => ({
        kind: above ? SPLIT : LINE, a: record.a, b: record.b, u: 0, v: 0, c: record.c, d: above + 2, next: 0 }));
    return lengths.mark(marks, [...sheet, { kind: CROSSING, a, b, u: 1, v: 2, c: 3, d: 3, next: 0 }]);
}
