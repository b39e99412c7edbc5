// The wall list of a board, and its marks again: as tools/revosti_command/pages.py writes and reads it.
import { LINE_BYTES, PAGE_LINES, Refused, pageCount, readPage, writePage } from "revosti/revosti";
import { edgeCount, edges, name } from "revosti/edges";
import { counted, grouped, say } from "revosti/say";

export { pageCount };

// A text that is no wall list of the board: its size, a line of one of its pages, or another length.
export class BadPages extends Error {}

// A page of a board with a set of marks, as text.
export function pageText(lengths, marks, page) {
    const text = new Uint8Array(PAGE_LINES * LINE_BYTES);
    return new TextDecoder().decode(text.subarray(0, writePage(lengths.n, lengths.table, marks, page, text)));
}

export const wallList = (lengths, marks) =>
    Array.from({ length: pageCount(lengths.n) }, (_, at) => pageText(lengths, marks, at + 1)).join("");

// The marks of a wall list that has the lengths of a board. Throws BadPages.
export function readList(text, lengths) {
    const { n } = lengths, every = edges(n), last = pageCount(n), size = PAGE_LINES * LINE_BYTES;
    if (text.length % LINE_BYTES
        || !whole(text.length / LINE_BYTES)) throw new BadPages(say("page_size", { bytes: counted(text.length, "byte") }));
    if (text.length !== LINE_BYTES * every.length) {
        throw new BadPages(say("list_points", { points: counted(whole(text.length / LINE_BYTES), "point"), where: "the board" }));
    }
    const table = new Uint32Array(every.length), marks = lengths.fresh();
    for (let page = 1; page <= last; page++) {
        readOne(n, page, text.slice(size * (page - 1), size * page), table, marks, every.slice(PAGE_LINES * (page - 1), PAGE_LINES * page));
    }
    table.forEach((listed, at) => sameLength(every[at], at, listed, lengths.table[at]));
    return marks;
}

// The number of points that have so many edges, 0 where none has.
function whole(count) {
    for (let n = 4; n <= 180; n++) if (edgeCount(n) === count) return n;
    return 0;
}

function readOne(n, page, text, table, marks, onPage) {
    try {
        readPage(n, page, text, table, marks);
    } catch (refused) {
        if (!(refused instanceof Refused)) throw refused;
        throw new BadPages(say("page_line", { page, line: refused.line, fault: fault(text, onPage, refused.line) }));
    }
}

// What is wrong with a line of a page that has these edges.
function fault(text, onPage, line) {
    if (line > onPage.length) {
        return say("page_end", { lines: counted(onPage.length, "line"), bytes: counted(text.length - LINE_BYTES * onPage.length, "byte") });
    }
    const found = new TextDecoder("latin1").decode(text.slice(LINE_BYTES * (line - 1), LINE_BYTES * line));
    return say("page_edge", { edge: name(...onPage[line - 1]), found: found ? `'${found.replace(/\n/g, "\\n")}'` : "the end" });
}

function sameLength(e, at, listed, length) {
    if (listed === length) return;
    throw new BadPages(say("list_length", { page: Math.floor(at / PAGE_LINES) + 1, line: at % PAGE_LINES + 1, edge: name(...e),
        listed: grouped(listed), length: grouped(length), where: "the board" }));
}
