// One record of a sheet, as the marker sees it: as tools/revosti_command/case.py finds it.
import { pairOf, reordered } from "revosti/fault";
import { settled } from "revosti/lengths";
import { CROSSING, STRETCH, STRETCH_POINT } from "revosti/parts";
import { say } from "revosti/say";
import { Sight } from "revosti/sight";

// K with the record's own edge or pair, its kind, its split point, its two centres or the two ends of its stretch; the
// edge that it crosses; the pairs that stand at the split, and those of them that no case names; the stretch and its
// new order. Where marking does not get there, `words` say so.
export function caseOf(records, lengths, marks, number) {
    const sight = new Sight(records, lengths, marks, number), { record } = sight;
    const found = { number, kind: record.kind, k: [], points: [], crossed: null, pairs: [], due: [], stretch: null, order: null,
        words: null };
    if (!sight.place || sight.way(number) === null) return { ...found, words: say("not_reached", { record: number }) };
    if (record.kind === STRETCH_POINT) return caseOf(records, lengths, marks, sight.place.owner);
    const line = sight.owners(number)[0] ?? number;
    sight.marks = marksBefore(records, lengths, settled(lengths.n, marks), sight.places.get(line).before, line);
    Object.assign(found, { line, k: sight.edges(number), marks: sight.marks });
    if (record.kind === CROSSING) return { ...found, points: [record.c, record.d], crossed: [record.u, record.v] };
    if (record.kind === STRETCH) return { ...found, points: [record.u, record.v], ...reordered(sight) };
    return { ...found, points: [record.c], ...splitCase(sight) };
}

// The pairs of a record that holds a split.
function splitCase(sight) {
    const pairs = sight.standing(sight.number);
    if (pairs === null) return { words: say("not_reached", { record: sight.number }) };
    const named = new Set(sight.chain(sight.number).map(k => String(pairOf(sight.get(k)))));
    return { pairs, due: pairs.filter(pair => !named.has(String(pair))) };
}

// The marks that a line is judged over: those that the lines before it leave.
function marksBefore(records, lengths, marks, last, line) {
    if (!last) return marks;
    const before = records.slice(0, line - 1);
    before[last - 1] = { ...before[last - 1], next: 0 };
    return lengths.mark(marks, before).left;
}
