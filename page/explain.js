// A verdict in words: as tools/revosti_command/explain.py says it.
import { countMarks, edgeCount, name } from "revosti/edges";
import { detail } from "revosti/fault";
import { nest } from "revosti/nest";
import { LINE } from "revosti/parts";
import { are, counted, meaning, say } from "revosti/say";
import { recordRows } from "revosti/write";

const AROUND = 3; // rows shown before and after the record at fault

// The size of the board and of the sheet.
export const boardWords = (board, records) => say("board", {
    points: counted(board.n, "point"), edges: counted(edgeCount(board.n), "edge"), kind: board.kind,
        records: counted(records.length, "record") });

// One sentence for each edge that the sheet strikes, with the edge and the record of its line.
export function struckWords(records, verdict) {
    const lines = strikingLines(records);
    return verdict.changed().map(([a, b]) => {
        const record = lines.get(name(a, b)), source = record ? say("of_record", { record }) : "";
        const phrase = verdict.action === "ask" ? "edge_pending" : "edge_struck";
        return { edge: [a, b], record, words: say(phrase, { edge: name(a, b), a, b, source }) };
    });
}

// For each edge, the first line that strikes it.
function strikingLines(records) {
    const found = new Map();
    for (const [number, place] of nest(records)) {
        const record = records[number - 1], edge = name(record.a, record.b);
        if (place.depth === 0 && record.kind === LINE && !found.has(edge)) found.set(edge, number);
    }
    return found;
}

// The verdict, its meaning, what is known about it and what stays: lines of words, and the pairs that are due.
export function verdictWords(parts, verdict) {
    const marks = marksWords(verdict.lengths.n, verdict.left);
    if (verdict.refusal === 0) return { words: [say("accepted", { lines: counted(verdict.lines, "line") }), marks], due: null };
    const known = detail(parts, verdict);
    const words = [say("refused", { number: verdict.refusal, words: meaning(verdict.refusal) }), known.words, kept(verdict.lines), marks];
    return { words: words.filter(line => line !== null), due: known.due };
}

// What a refusal leaves of the lines before it, so many of them accepted.
function kept(count) {
    return count === 0 ? say("none_accepted") : say("some_accepted", { lines: counted(count, "line"), are: are(count) });
}

// How many edges of a set have each mark.
export function marksWords(n, marks) {
    const found = countMarks(n, marks);
    return say("marks", Object.fromEntries(Object.entries(found).map(([mark, count]) => [mark, counted(count, "edge")])));
}

// The record at fault among its neighbours: words, and the rows with their numbers. null where there is no fault.
export function faultWords(sheet, verdict) {
    if (verdict.refusal === 0) return null;
    if (verdict.record === 0) return { words: say("no_fault"), rows: [] };
    const { record } = verdict, rows = recordRows(sheet.parts.records), line = sheet.lines[record - 1],
        here = row => row.first <= record && record <= row.last;
    const at = rows.findIndex(here), from = Math.max(0, at - AROUND);
    const source = within(rows[at], record) + (line ? say("text_line", { line }) : "");
    return { words: say("at_fault", { record, source }),
        rows: at < 0 ? [] : rows.slice(from, at + AROUND + 1).map(row => ({ number: row.first, text: row.text, fault: here(row) })) };
}

// Where a record stands that has no row of its own: in that of the new order that it is a point of.
function within(row, record) {
    return row && row.first < record ? say("point_of_order", { i: record - row.first, record: row.first }) : "";
}

// Verdict and fault as text.
export function toldText(sheet, verdict) {
    const fault = faultWords(sheet, verdict),
        rows = fault ? fault.rows.map(row => `${row.fault ? ">" : " "} ${String(row.number).padStart(5)}  ${row.text}`) : [];
    return [verdictWords(sheet.parts, verdict).words.join("\n"), ...(fault ? [[fault.words, ...rows].join("\n")] : [])].join("\n\n");
}
