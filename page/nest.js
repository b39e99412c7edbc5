// How records lie in each other: as tools/revosti_command/nest.py finds it.
//
// The walk follows the indexes as marking does, without judging the arguments, and goes on where marking stops: an
// index that marking refuses counts as the end of its chain. The numbers of the records entered rise, so the walk ends.
import { CROSSING, LINE, SPLIT, STRETCH, STRETCH_POINT } from "revosti/parts";

const MAX_DEPTH = 20; // deeper cases are left out of the walk; six splits are allowed

// The place of each record entered, by number from 1, rising: its depth (0 for a line), the record that holds its
// chain, the record before it there (0 for none), and whether its kind fits its chain.
export function nest(records) {
    const places = new Map();
    let entering = records.length ? [1, 0, 0] : null;
    while (entering) {
        const [number, owner, before] = entering;
        const depth = owner ? places.get(owner).depth + 1 : 0;
        places.set(number, { depth, owner, before, shaped: kindsUnder(records[owner - 1]).includes(records[number - 1].kind) });
        entering = inward(records, places, number) ?? onward(records, places, number);
    }
    return places;
}

// The kinds of a chain, by the record that holds it: of lines where there is none, of the points of a new order, or of
// cases.
export function kindsUnder(owner) {
    if (!owner) return [LINE];
    return owner.kind === STRETCH ? [STRETCH_POINT] : [SPLIT, CROSSING, STRETCH];
}

// Whether the record's kind carries a split.
export const holdsSplit = record => [LINE, SPLIT].includes(record.kind);

// Whether the record's kind leads to a chain, of cases or of points.
export const holdsChain = record => holdsSplit(record) || record.kind === STRETCH;

// Whether an index passes tests 8 and 9 and is not the end.
const usable = (index, highest, count) => highest < index && index <= count;

// The first case or point of the record just entered, if the walk can enter it.
function inward(records, places, number) {
    const record = records[number - 1], place = places.get(number);
    const enters = place.shaped && holdsChain(record) && place.depth < MAX_DEPTH && usable(record.d, number, records.length);
    return enters ? [record.d, number, 0] : null;
}

// The next record after a finished one: in its chain, or further out.
function onward(records, places, highest) {
    for (let number = highest; number; number = places.get(number).owner) {
        const index = records[number - 1].next;
        if (usable(index, highest, records.length)) return [index, places.get(number).owner, number];
    }
    return null;
}

// The usual indexes: each owner's first case or point and each record's next.
export function links(places) {
    const first = new Map(), after = new Map();
    for (const [number, { owner, before }] of places) {
        if (before) after.set(before, number);
        else if (owner) first.set(owner, number);
    }
    return { first, after };
}
