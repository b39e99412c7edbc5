// Eight desks over one board (docs/RULES.md, Eight desks): each with marks of its own, served in turns of one line.
import { DESKS, DESKS_BYTES, Refused, handIn, nextDesk, openDesks, turn } from "revosti/revosti";
import { marksWords, toldText } from "revosti/explain";
import { fileWords } from "revosti/fault";
import { Verdict, lent } from "revosti/lengths";
import { are, counted, meaning, say } from "revosti/say";

export { DESKS };

const SLIP = (1n << 40n) - 1n; // the bits of a turn's answer that are a slip

export class Hall {
    constructor(board) {
        this.board = board;
        this.state = new Uint8Array(DESKS_BYTES);
        openDesks(this.state);
        this.desks = Array.from({ length: DESKS }, (_, at) => ({
            desk: at + 1, marks: board.lengths.fresh(), sheet: null, records: null, file: "", found: null, slip: null }));
        this.turns = [];
    }

    get next() {
        return nextDesk(this.state);
    }

    get last() {
        return numberAt(this.state, 0);
    }

    get used() {
        return this.desks.some(desk => desk.sheet);
    }

    // Hands in a sheet at a desk. Answers what is refused, in words, or null.
    handIn(number, sheet, file) {
        const desk = this.desks[number - 1], { n, lengths } = this.board, records = lent(recordsOf(sheet));
        try {
            handIn(this.state, number, n, lengths.table, desk.marks, records);
        } catch (refused) {
            if (!(refused instanceof Refused)) throw refused;
            return [say("refused", { number: refused.number, words: meaning(refused.number) }),
                fileWords(sheet.parts, refused.number)].filter(Boolean).join(" ");
        }
        Object.assign(desk, { sheet, records, file, found: desk.marks.slice(), slip: null });
        return null;
    }

    // One turn: what it tells, or null where no desk has a line left.
    turn() {
        const number = this.next, desk = this.desks[number - 1], { n, lengths } = this.board;
        if (!number) return null;
        const taken = turn(this.state, n, lengths.table, desk.marks, desk.records);
        desk.slip = taken.lineLeft ? null : taken.answer & SLIP;
        this.turns.push(turnWords(taken, desk, lengths));
        return taken;
    }

    // Who is served next, and who was served last.
    words() {
        const next = this.next ? say("served_next", { desk: this.next }) : say("no_line_left");
        return this.last ? say("served_last", { next, desk: this.last }) : say("none_served", { next });
    }

    // What a desk has.
    rowWords(number) {
        const { slip, sheet } = this.desks[number - 1];
        const [index, owner, lines] = [0, 1, 2].map(at => numberAt(this.state, 3 * number - 2 + at));
        if (lines < index) {
            return say("line_waits",
                { record: index, source: owner ? say("leads_to", { owner }) : "", lines: counted(lines, "line"), are: are(lines) });
        }
        return sheet && slip !== null ? say("sheet_ended", { slip }) : say("no_sheet");
    }

    waits(number) {
        return numberAt(this.state, 3 * number) < numberAt(this.state, 3 * number - 2);
    }
}

// Records as the library takes them: a broken last record gets 7, and so does no record.
const recordsOf = sheet => (sheet.parts.tail.length ? [] : sheet.parts.records);

// A number of the state, from 0 on.
const numberAt = (state, at) => state[2 * at] + 256 * state[2 * at + 1];

// What a turn tells.
function turnWords(taken, { sheet, found, marks, slip, desk }, lengths) {
    const lines = counted(taken.lines, "line");
    if (taken.lineLeft) return say("desk_so_far", { desk, lines });
    if (taken.refusal === 0) return say("desk_accepted", { desk, lines, marks: marksWords(lengths.n, marks) });
    return say("desk_told", { desk, words: toldText(sheet, new Verdict(lengths, found, marks.slice(), slip)) });
}
