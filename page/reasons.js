// What a sentence of Paper 6 speaks of: the edges and points that light up when it is pointed at.
import { edge } from "revosti/edges";

const PAIR = /(\d+) and (\d+) as neighbours of (\d+)\.$/;

// Of each kind of sentence, by its first word: the edges and the points that its own numbers name.
const KINDS = {
    Struck: ([a, b]) => ({ edges: [[a, b]], points: [] }),
    Third: ([c]) => ({ edges: [], points: [c] }),
    Loop: points => ({ edges: path([...points, points[0]]), points: [] }),
    Exchanging: ([a, b, p, q]) => ({ edges: [[a, b], [p, q]], points: [] }),
    Moving: ([w, u, v]) => ({ edges: [[u, v]], points: [w] }),
    Crossing: ([p, q, r, s]) => ({ edges: [[p, q]], points: [r, s] }),
    Further: ([c]) => ({ edges: [], points: [c] }),
    New: points => ({ edges: path(points), points: [] }),
};

// The edges of a path through some points.
const path = points => points.slice(1).map((point, at) => edge(points[at], point));

// What lights up: the sentence's own edges, the two of its pair, and rings.
export function spokenOf(sentence) {
    const pair = PAIR.exec(sentence), kind = sentence.split(" ")[0];
    if (!pair || !Object.hasOwn(KINDS, kind)) return { edges: {}, rings: [] };
    const [x, y, c] = pair.slice(1).map(Number);
    const own = sentence.slice(0, pair.index).replace(/ saves -?\d+/, "").match(/\d+/g).map(Number);
    const { edges, points } = KINDS[kind](own);
    return { edges: { put: [edge(c, x), edge(c, y)], lit: edges }, rings: [c, ...points] };
}
