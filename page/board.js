// A board from what a person has: a TSPLIB text, the text form with a board in front, coordinates or weights.
import { edgeCount } from "revosti/edges";
import { fileWords } from "revosti/fault";
import { Lengths, Refused } from "revosti/lengths";
import { MAX_32, join, MAX_FILE, isCut } from "revosti/parts";
import { pack, hasBoard } from "revosti/read";
import { counted, meaning, say } from "revosti/say";
import { BadText } from "revosti/scan";
import { BadBoard, looksLike, readText } from "revosti/tsplib";
import { boardText } from "revosti/write";
import { LEAST_POINTS, MOST_POINTS, measure } from "revosti/revosti";
import { RULES } from "revosti/words";

export { BadBoard };

// A board: its lengths, where its points lie (on a circle where it has weights), its kind in words, its text and how
// that is written: "any" is TSPLIB's way or the text form.
export class Board {
    constructor({ n, table, points, rule, text, written = "any" }) {
        Object.assign(this, { n, lengths: new Lengths(n, table), rule, text, written, coordinates: points });
        this.kind = rule === null ? say("by_weights") : say("by_rule", { rule, name: RULES[rule] });
        this.points = points ?? circle(n);
    }
}

// Points on a circle, the first at the top, clockwise.
function circle(n) {
    return Array.from({ length: n }, (_, at) => [Math.sin(2 * Math.PI * at / n), Math.cos(2 * Math.PI * at / n)].map(x => 1000 + 1000 * x));
}

// The board of a text of a kind: "any" is TSPLIB's or the text form. Throws BadBoard.
export function boardOf(text, kind = "any", rule = 1) {
    try {
        if (kind === "coordinates") return byCoordinates(text, rule);
        if (kind === "weights") return byWeights(text);
        return hasBoard(text) && !looksLike(text) ? ofParts(pack(text).parts, text) : ofTsplib(text);
    } catch (error) {
        if (error instanceof BadText) throw new BadBoard(error.words, error.line);
        if (error instanceof Refused) throw new BadBoard(refusedWords(error.number, null));
        throw error;
    }
}

// The board of the pieces of a sheet. Throws BadBoard where the file is cut, and where measuring refuses.
export function ofParts(parts, text = null, written = "any") {
    const within = parts.n !== null && LEAST_POINTS <= parts.n && parts.n <= MOST_POINTS;
    if (parts.n === null || within && (isCut(parts) || join(parts).length > MAX_FILE)) throw new BadBoard(refusedWords(7, parts));
    const table = new Uint32Array(within ? edgeCount(parts.n) : 0);
    try {
        measure(parts.n, parts.rule, Uint32Array.from(parts.points.flat()), table);
    } catch (error) {
        if (error instanceof Refused) throw new BadBoard(refusedWords(error.number, parts));
        throw error;
    }
    return new Board({ n: parts.n, table, points: parts.points, rule: parts.rule, text: text ?? boardText(parts), written });
}

// A refusal of a board in words.
function refusedWords(number, parts) {
    return [say("refused", { number, words: meaning(number) }), parts && fileWords(parts, number)].filter(Boolean).join(" ");
}

function ofTsplib(text) {
    return new Board({ ...readText(new TextEncoder().encode(text)), text });
}

// The numbers of a text, line by line, with the number of each line. Throws BadBoard.
function numberRows(text) {
    return text.split("\n").map((row, at) => {
        const words = row.replace(/#.*/, "").split(/[\s,;]+/).filter(word => word);
        const wrong = words.find(word => !/^[0-9]+$/.test(word) || Number(word) > MAX_32);
        if (wrong) throw new BadBoard(`expected whole numbers from 0 to ${MAX_32}, found "${wrong.slice(0, 40)}"`, at + 1);
        return { line: at + 1, numbers: words.map(Number) };
    }).filter(row => row.numbers.length);
}

// A line a hole: two coordinates, or its number and two coordinates.
function byCoordinates(text, rule) {
    const rows = numberRows(text);
    const numbered = rows.length > 0 && rows.every((row, at) => row.numbers.length === 3 && row.numbers[0] === at + 1);
    for (const row of rows) {
        if (row.numbers.length !== (numbered ? 3 : 2)) {
            const found = counted(row.numbers.length, "number");
            throw new BadBoard(`expected two whole coordinates, or the hole's number and two, found ${found}`, row.line);
        }
    }
    const points = rows.map(row => row.numbers.slice(-2));
    return ofParts({ rule, n: points.length, points, records: [], tail: new Uint8Array(0) }, text, "coordinates");
}

// The lengths in edge order, 1-2, 1-3, ..: made a TSPLIB text, which the library reads.
function byWeights(text) {
    const weights = numberRows(text).flatMap(row => row.numbers), n = (1 + Math.sqrt(1 + 8 * weights.length)) / 2;
    if (!weights.length || !Number.isInteger(n)) {
        const found = counted(weights.length, "number");
        throw new BadBoard(`expected the lengths of all edges, 6 for 4 holes, 10 for 5, 15 for 6 and so on, found ${found}`);
    }
    const lines = ["TYPE : TSP", `DIMENSION : ${n}`, "EDGE_WEIGHT_TYPE : EXPLICIT", "EDGE_WEIGHT_FORMAT : UPPER_ROW",
        "EDGE_WEIGHT_SECTION", weights.join(" "), "EOF", ""];
    return new Board({ ...readText(new TextEncoder().encode(lines.join("\n"))), text, written: "weights" });
}
