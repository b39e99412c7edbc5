// The lengths of a board, and the calls that are over them. Every verdict is the library's.
import {
    Refused, askSheet, checkTour, confirm, crossingSaving, exchangeSaving, freshMarks, listPairs, markSheet, moveSaving,
    refusal, record, lines, tellLine, toldSize, withdraw,
} from "revosti/revosti";
import { changedEdges, countMarks, marksSize } from "revosti/edges";
import { numbersOf } from "revosti/parts";

export { Refused };

const SAVINGS = { exchange: exchangeSaving, move: moveSaving, crossing: crossingSaving };

// A sheet as it is lent: eight numbers a record.
export const lent = records => Uint16Array.from(records.flatMap(numbersOf));

export class Lengths {
    constructor(n, table) {
        Object.assign(this, { n, table });
    }

    fresh() {
        const marks = new Uint8Array(marksSize(this.n));
        freshMarks(this.n, marks);
        return marks;
    }

    // The verdict of marking, and of asking, records over a set, which stays as it is.
    mark(marks, records) {
        return this.judge(markSheet, marks, records);
    }

    ask(marks, records) {
        return this.judge(askSheet, marks, records);
    }

    judge(operation, marks, records) {
        const left = marks.slice();
        return new Verdict(this, marks, left, slipOf(() => operation(this.n, this.table, left, lent(records))));
    }

    // The pairs that stand at c under a-b.
    pairs(marks, a, b, c) {
        const list = new Uint16Array((this.n - 1) * (this.n - 2));
        const count = listPairs(this.n, this.table, marks, a, b, c, list);
        return Array.from({ length: count }, (_, at) => [list[2 * at], list[2 * at + 1]]);
    }

    saving(rule, points) {
        return SAVINGS[rule](this.n, this.table, ...points);
    }

    // The length of a tour, and whether all its edges are open.
    tour(marks, points) {
        return checkTour(this.n, this.table, marks, Uint16Array.from(points));
    }

    // The sentences that tell a line, of the record with a number.
    tell(marks, records, number) {
        const text = new Uint8Array(toldSize(this.n));
        const size = tellLine(this.n, this.table, marks, lent(records), number, text);
        return new TextDecoder().decode(text.subarray(0, size)).split("\n").slice(0, -1);
    }
}

// The answer of marking, a slip, refused or not.
function slipOf(call) {
    try {
        return call().answer;
    } catch (refused) {
        if (refused instanceof Refused) return refused.answer;
        throw refused;
    }
}

// What a sheet came to: the slip, the marks found and the marks left.
export class Verdict {
    constructor(lengths, found, left, slip) {
        Object.assign(this, { lengths, found, left, slip, refusal: refusal(slip), record: record(slip), lines: lines(slip) });
    }

    // The edges that accepted lines struck or made pending, in edge order.
    changed() {
        return changedEdges(this.lengths.n, this.found, this.left);
    }

    // The marks that the line at fault was judged over, with nothing pending: within an asked sheet pending counts as
    // struck.
    closed() {
        return settled(this.lengths.n, this.left, confirm);
    }
}

// A set with nothing pending: confirmed or withdrawn.
export function settled(n, marks, call = withdraw) {
    const left = marks.slice();
    if (countMarks(n, marks).pending) call(n, left);
    return left;
}

export { confirm, withdraw };
