// Files that are opened: each is read first, and replaces what was there only where that went well and nobody minds.
import { BadBoard, boardOf, ofParts } from "revosti/board";
import { decode, isWide, kindOf } from "revosti/files";
import { agreed, notice } from "revosti/notice";
import { BadPages, readList } from "revosti/pages";
import { split } from "revosti/parts";
import { hasBoard, packBeside, recordsFrom } from "revosti/read";
import { say } from "revosti/say";
import { BadText } from "revosti/scan";
import { BadSet, digest, hold, readFingerprint, readSet } from "revosti/sets";
import { unpackBeside } from "revosti/write";

const DESKS_DROPPED = "The desks have sheets for the board in use, which are dropped.";
const BOX_REPLACED = "The board's box has a text that is not in use, and would be replaced.";
const WIDE = "the text is UTF-16, two bytes a letter; save it as UTF-8";
const FIRST = ["board", "binary", "text", "wall", "set", "tour"]; // a board is opened before what is of it
const FAULTS = [BadBoard, BadText, BadSet, BadPages];

export class Opening {
    // `show` has the panels' functions: board(board), sheet(text), tour(text), and whether desks are used or the board's
    // box has a text that is not in use.
    constructor(session, show) {
        Object.assign(this, { session, show });
    }

    // Opens files, as what they are or as the kind that is asked for.
    async open(files, wanted = null) {
        const known = files.map(file => ({ ...file, kind: kindAs(wanted, file) }));
        const prints = known.filter(file => file.kind === "fingerprint"), others = known.filter(file => file.kind !== "fingerprint");
        for (const file of others.sort((p, q) => FIRST.indexOf(p.kind) - FIRST.indexOf(q.kind))) {
            await this.tried(file, () => this[file.kind](file, prints));
        }
        if (prints.length && !others.length) notice(`${prints[0].name}: a fingerprint is opened together with its set`, "bad");
    }

    // Runs the opening of a file, and tells what is wrong with the file. Answers null then.
    async tried(file, open) {
        try {
            if (isWide(file.data) && !["set", "binary"].includes(file.kind)) throw new BadBoard(WIDE);
            return await open();
        } catch (error) {
            if (!FAULTS.some(fault => error instanceof fault)) throw error;
            const line = error.line ? `, line ${error.line}${error.column ? `, column ${error.column}` : ""}` : "";
            notice(`${file.name}${line}: ${error.words ?? error.message}`, "bad");
            return null;
        }
    }

    async board(file) {
        await this.useBoard(boardOf(textOf(file)), file.name);
    }

    // A sheet as text: with its board in front it fills both boxes.
    async text(file) {
        const { board, sheet } = halves(textOf(file));
        await this.both(board === null ? null : boardOf(board), sheet, file.name);
    }

    // A board and a sheet of one file; null stands for what is not there.
    async both(board, sheet, name) {
        if (board && !await this.useBoard(board, sheet === null ? name : null)) return;
        if (sheet !== null) await this.useSheet(sheet, name);
    }

    async binary(file) {
        const parts = split(file.data), sheet = parts.records.length || parts.tail.length ? unpackBeside(parts) : null;
        await this.both(ofParts(parts), sheet, file.name);
    }

    async set(file, prints) {
        const print = prints.find(one => one.name === `${file.name}.fingerprint`) ?? (prints.length === 1 ? prints[0] : null);
        if (print) hold(readFingerprint(decode(print.data)), this.session.lengths);
        const marks = readSet(file.data, this.session.n);
        if (!await this.mayDrop("marks")) return;
        this.session.replaceMarks(marks);
        if (print) notice(`${file.name}: the marks are those of the set`);
        else notice(`${file.name}: ${say("set_unknown", { name: `${file.name}.fingerprint` })}`, "bad");
    }

    async wall(file) {
        const marks = readList(file.data, this.session.lengths);
        if (!await this.mayDrop("marks")) return;
        this.session.replaceMarks(marks);
        notice(`${file.name}: the marks are those of the wall list`);
    }

    tour(file) {
        this.show.tour(textOf(file));
        notice(`${file.name}: the tour is in its box`);
    }

    // Whether what is not saved may be replaced.
    async mayDrop(what) {
        if (this.session.saved[what]) return true;
        return agreed(`The ${what === "marks" ? "marks are" : "sheet is"} not saved, and would be replaced.`, "Replace");
    }

    isSame(board) {
        const { session } = this;
        return session.board !== null && session.n === board.n && digest(session.lengths.table) === digest(board.lengths.table);
    }

    // Another board, with fresh marks; one with the same lengths keeps the marks. Whether it is in use now.
    async useBoard(board, name = null) {
        const same = this.isSame(board);
        if (!same && this.show.desksUsed() && !await agreed(DESKS_DROPPED, "Drop them")) return false;
        if (this.show.boxChanged(board) && !await agreed(BOX_REPLACED, "Replace")) return false;
        if (!same && !await this.mayDrop("marks")) return false;
        if (same) this.session.renewBoard(board);
        else this.session.setBoard(board);
        this.show.board(board);
        const how = same ? "the board has the same lengths, and keeps its marks" : "the board is in use, with fresh marks";
        if (name) notice(`${name}: ${how}`);
        return true;
    }

    async useSheet(text, name) {
        if (!await this.mayDrop("sheet")) return;
        this.show.sheet(text);
        notice(`${name}: the sheet is in the editor`);
    }

    // The sheet of a file for a desk, which has no board or the same; null where there is none.
    sheetFor(file) {
        const kind = kindOf(file.name, file.data);
        return this.tried({ ...file, kind }, () => (kind === "binary" ? this.binarySheet(split(file.data)) : this.textSheet(textOf(file))));
    }

    binarySheet(parts) {
        this.holdBoard(ofParts(parts));
        return { parts: { n: null, points: null, records: parts.records, tail: parts.tail }, lines: [] };
    }

    textSheet(text) {
        const { board, sheet } = halves(text);
        if (board !== null) this.holdBoard(boardOf(board));
        return packBeside(sheet ?? "");
    }

    holdBoard(board) {
        if (!this.isSame(board)) throw new BadBoard("the sheet is of another board");
    }
}

const textOf = file => decode(file.data).replace(/\r\n?/g, "\n");

// A text with a board in front: the board, and the lines of the sheet behind it. null stands for what is not there.
export function halves(text) {
    if (!hasBoard(text)) return { board: null, sheet: text };
    const at = recordsFrom(text), rows = text.split("\n");
    return { board: `${rows.slice(0, at - 1).join("\n")}\n`, sheet: at > rows.length ? null : rows.slice(at - 1).join("\n") };
}

// What a file is opened as.
function kindAs(wanted, file) {
    const found = kindOf(file.name, file.data);
    if (found === "fingerprint" || wanted === null) return found;
    return { sheet: found === "binary" ? "binary" : "text", board: ["binary", "text"].includes(found) ? found : "board" }[wanted] ?? wanted;
}
