// Savings in words: as tools/revosti_command/saving.py says them. The saving is the library's; the sums that show it
// are added up here.
import { name, place } from "revosti/edges";
import { say } from "revosti/say";

// Of each rule: the points that it names, the steps that show it, its name and what the saving says.
export const SAVINGS = {
    exchange: { points: "PQXY", steps: exchangeSteps, words: (p, q, x, y) => say("exchange", { pq: name(p, q), xy: name(x, y) }),
        meaning: above => say(above ? "not_compatible" : "compatible") },
    move: { points: "CXYUV", steps: moveSteps, words: (c, x, y, u, v) => say("move", { c, x, y, u, v }), meaning: moveMeaning },
    crossing: { points: "PQRSXYZW", steps: crossingSteps, words: (p, q, r, s) => say("crossing", { pq: name(p, q), r, s }),
        meaning: above => say(above ? "crossing_settles" : "crossing_refused") },
};

// The saving of a rule on a board: the number, lines of words, and the edges taken out and put in. Throws Refused.
export function tellSaving(lengths, which, points) {
    const rule = SAVINGS[which], saving = lengths.saving(which, points), above = saving > 0;
    const steps = rule.steps(lengths, ...points), last = steps.length > 1 ? [say("smaller_counts")] : [];
    const meaning = say(above ? "above_0" : "not_above_0", { meaning: rule.meaning(above, ...points) });
    return { saving, steps,
        words: [say("saves", { what: rule.words(...points), saving }), ...steps.map(s => stepWords(lengths, s)), ...last, meaning] };
}

// l(ab); a point is 0 from itself.
const length = (lengths, [a, b]) => (a === b ? 0 : lengths.table[place(lengths.n, a, b)]);
const total = (lengths, edges) => edges.reduce((sum, e) => sum + length(lengths, e), 0);
const saved = (lengths, { out, put }) => total(lengths, out) - total(lengths, put);

// One way to take out and put in.
function stepWords(lengths, step) {
    const [taken, given] = [total(lengths, step.out), total(lengths, step.put)];
    return say("step", { out: sumWords(lengths, step.out), put: sumWords(lengths, step.put), taken, given, saved: taken - given });
}

function sumWords(lengths, edges) {
    const names = edges.map(e => name(...e)), last = names.pop();
    return say("sum", { edges: `${names.join(", ")} and ${last}`, lengths: edges.map(e => length(lengths, e)).join(" + "),
        total: total(lengths, edges) });
}

function exchangeSteps(_, p, q, x, y) {
    const out = [[p, q], [x, y]];
    return [{ out, put: [[p, x], [q, y]] }, { out, put: [[p, y], [q, x]] }];
}

function moveSteps(_, c, x, y, u, v) {
    return [{ out: [[x, c], [y, c], [u, v]], put: [[x, y], [u, c], [v, c]] }];
}

function moveMeaning(above, c, x, y, u, v) {
    if (x === y || c === u || c === v) return say("move_asks", { c });
    return say(above ? "move_shuts" : "move_shuts_not", { edges: `${name(x, c)}, ${name(y, c)} and ${name(u, v)}` });
}

// The two moves of the best labelling, the first of the best.
function crossingSteps(lengths, p, q, r, s, x, y, z, w) {
    const ways = [[x, y, z, w], [x, y, w, z], [y, x, z, w], [y, x, w, z]].map(ends => labelling(p, q, r, s, ...ends));
    const worst = moves => Math.min(...moves.map(move => saved(lengths, move)));
    return ways.reduce((best, moves) => (worst(moves) > worst(best) ? moves : best));
}

function labelling(p, q, r, s, x, y, z, w) {
    return [{ out: [[p, q], [r, x], [s, w]], put: [[r, s], [p, x], [q, w]] },
        { out: [[p, q], [r, y], [s, z]], put: [[r, s], [p, z], [q, y]] }];
}
