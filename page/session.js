// What the page is at: the board, its marks, the sheet and its verdict, the tour. Whoever shows a part of it is told
// when that part changes.
import { countMarks } from "revosti/edges";
import { Refused, confirm, withdraw } from "revosti/lengths";
import { caseOf } from "revosti/case";
import { packBeside } from "revosti/read";
import { meaning, say } from "revosti/say";
import { BadText } from "revosti/scan";

const EMPTY = { parts: { n: null, points: null, records: [], tail: new Uint8Array(0) }, lines: [] };

export class Session {
    constructor() {
        Object.assign(this, { board: null, marks: null, text: "", sheet: EMPTY, textFault: null, verdict: null, tour: null });
        this.saved = { sheet: true, marks: true };
        this.listeners = new Map();
    }

    // Has a listener told of changes: "board", "marks", "sheet", "verdict", "tour".
    on(...given) {
        const listener = given.pop();
        for (const what of given) this.listeners.set(what, [...this.listeners.get(what) ?? [], listener]);
    }

    tell(what) {
        for (const listener of this.listeners.get(what) ?? []) listener();
    }

    get n() {
        return this.board.n;
    }

    get lengths() {
        return this.board.lengths;
    }

    get counts() {
        return countMarks(this.n, this.marks);
    }

    // Another board, with fresh marks.
    setBoard(board) {
        Object.assign(this, { board, marks: board.lengths.fresh(), verdict: null, tour: null });
        this.saved.marks = true;
        ["board", "marks", "verdict", "tour"].forEach(what => this.tell(what));
    }

    // A board with the same lengths, drawn or written otherwise: all else stays.
    renewBoard(board) {
        this.board = board;
        ["board", "marks"].forEach(what => this.tell(what));
    }

    // Other marks, which stand in a file or are fresh. The verdict on the sheet was over those before.
    replaceMarks(marks) {
        this.verdict = null;
        this.setMarks(marks, true);
        this.tell("verdict");
    }

    setMarks(marks, saved) {
        this.marks = marks;
        this.saved.marks = saved;
        this.tell("marks");
    }

    // The text of the sheet, which is read at once. One that is none has its fault.
    setText(text, saved = false) {
        if (text === this.text && saved === this.saved.sheet) return;
        this.saved.sheet = saved || text === this.text && this.saved.sheet;
        this.text = text;
        try {
            [this.sheet, this.textFault] = [packBeside(text), null];
        } catch (error) {
            if (!(error instanceof BadText)) throw error;
            [this.sheet, this.textFault] = [EMPTY, error];
        }
        this.tell("sheet");
    }

    // Records as the library takes them: a broken last record gets 7, and so does no record.
    get records() {
        return this.sheet.parts.tail.length ? [] : this.sheet.parts.records;
    }

    // The verdict on the sheet: "check" changes no mark, "ask" makes its strikes pending, "mark" makes them count.
    judge(action) {
        const verdict = action === "ask" ? this.lengths.ask(this.marks, this.records) : this.lengths.mark(this.marks, this.records);
        this.verdict = Object.assign(verdict, { action, text: this.text, sheet: this.sheet });
        if (action !== "check" && verdict.left.some((byte, at) => byte !== verdict.found[at])) this.setMarks(verdict.left, false);
        this.tell("verdict");
    }

    // Confirms or withdraws what is pending. Answers what is refused, in words, or null.
    settle(action) {
        const marks = this.marks.slice();
        try {
            (action === "confirm" ? confirm : withdraw)(this.n, marks);
        } catch (refused) {
            if (!(refused instanceof Refused)) throw refused;
            return say("refused", { number: refused.number, words: meaning(refused.number) });
        }
        this.setMarks(marks, false);
        if (this.verdict) this.verdict.settled = action;
        this.tell("verdict");
        return null;
    }

    // The marks that the sheet is looked at over: those that it was judged over, as long as it is the same sheet.
    get base() {
        return this.verdict && this.verdict.text === this.text ? this.verdict.found : this.marks;
    }

    // The case of the record on a line of the text, or null where there is none.
    caseAt(line) {
        const at = this.sheet.lines.indexOf(line);
        return at < 0 || !this.board ? null : caseOf(this.sheet.parts.records, this.lengths, this.base, at + 1);
    }

    setTour(tour) {
        this.tour = tour;
        this.tell("tour");
    }
}

