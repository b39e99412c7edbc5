// The parts of an answer, and of a slip, and the places of edges: the inline functions of include/revosti.h, under
// their names.

export const LEAST_POINTS = 4;
export const MOST_POINTS = 180;
export const MOST_COORDINATE = 1000000;
export const MOST_LENGTH = 2000000;
export const MOST_RECORDS = 4000;
export const MOST_SPLITS = 6;
export const VIEW_BYTES = 6;
export const PAGE_LINES = 60;
export const LINE_BYTES = 25;
export const SENTENCE_BYTES = 128;
export const DESKS = 8;
export const DESKS_BYTES = 50;
export const STOPPED = 255;
export const STRUCK = 0;
export const OPEN = 1;
export const PENDING = 2;
export const LINE = 1;
export const SPLIT = 2;
export const CROSSING = 3;
export const STRETCH = 4;
export const STRETCH_POINT = 5;

/** The bits of an answer from one on, so many of them, as a number. */
function bits(answer, from, width) {
    return Number(BigInt.asUintN(width, BigInt.asUintN(64, answer) >> BigInt(from)));
}

export const refusal = (answer) => bits(answer, 0, 8);
export const record = (answer) => bits(answer, 8, 16);
export const lines = (answer) => bits(answer, 24, 16);
export const isReleased = (slip) => bits(slip, 40, 1) === 1;
export const pairs = (answer) => bits(answer, 16, 48);
export const tourLength = (answer) => bits(answer, 16, 48);
export const tourOpen = (answer) => bits(answer, 8, 1) === 1;
export const points = (answer) => bits(answer, 16, 32);
export const textLine = (answer) => bits(answer, 8, 56);
export const pageBytes = (answer) => bits(answer, 16, 48);
export const toldBytes = (answer) => bits(answer, 16, 48);
export const wrongLine = (answer) => bits(answer, 8, 8);
export const next = (answer) => bits(answer, 16, 32);
export const desk = (answer) => bits(answer, 48, 8);
export const lineLeft = (answer) => bits(answer, 56, 1) === 1;
export const saving = (answer) => Number(BigInt.asIntN(64, answer) / 65536n);

/** How many edges n points have. */
export const edges = (n) => (n * (n - 1)) / 2;

/** The place of the edge a-b, in either order. */
export function place(n, a, b) {
    const low = Math.min(a, b);
    return ((low - 1) * (2 * n - low)) / 2 + Math.abs(a - b) - 1;
}

/** How many pages the wall list of n points has. */
export const pageCount = (n) => Math.ceil(edges(n) / PAGE_LINES);

/** How many bytes always hold the sentences of a line. */
export const toldSize = (n) => SENTENCE_BYTES * (((n - 1) * (n - 2)) / 2);

/** How many bytes the packed set of n points has. */
export const marksSize = (n) => Math.ceil(edges(n) / 4);

/** The mark of the edge a-b in a packed set, in either order. */
export function markOf(n, marks, a, b) {
    const at = place(n, a, b);
    return (marks[at >> 2] >> (2 * (at & 3))) & 3;
}
