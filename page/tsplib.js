// TSPLIB texts: a board taken from one, and what was expected at a line that is refused, as
// tools/revosti_command/tsplib.py says it. Whether a text is one, and the line that is told, is what the library
// answers.
import { Refused, readTsplib, tsplibPoints, edges as edgeCount } from "revosti/revosti";
import { MAX_32 } from "revosti/parts";
import { counted, either, say } from "revosti/say";
import { RULES } from "revosti/words";

const NUMBERS = Object.fromEntries(Object.entries(RULES).map(([rule, name]) => [name, Number(rule)]));
const EXPLICIT = "EXPLICIT", FORMAT = "EDGE_WEIGHT_FORMAT", TYPE = "EDGE_WEIGHT_TYPE";
const NODES = "NODE_COORD_SECTION", WEIGHTS = "EDGE_WEIGHT_SECTION", SECTIONS = [NODES, WEIGHTS];
const NOUNS = { [NODES]: "coordinates", [WEIGHTS]: "weights" };
const VALUES = { NAME: "any value", COMMENT: "any value", TYPE: "TSP", DIMENSION: `one whole number from 0 to ${MAX_32}`,
    [TYPE]: `${Object.keys(NUMBERS).join(", ")} or ${EXPLICIT}`, [FORMAT]: "UPPER_ROW" };
const REAL = /^[+-]?([0-9]+\.?[0-9]*|\.[0-9]+)([eE][+-]?[0-9]+)?$/;
const SHOWN = 60; // characters of a line
const UNSEEN = /[\p{C}\p{Z}]/u;

// A text that gives no board: what is wrong, and at which line, 0 if it is none of one line.
export class BadBoard extends Error {
    constructor(words, line = 0) {
        super(words);
        Object.assign(this, { words, line });
    }
}

// Whether a text looks like TSPLIB's.
export const looksLike = text =>
    /^\s*(NAME|COMMENT|TYPE|DIMENSION|EDGE_WEIGHT_TYPE|EDGE_WEIGHT_FORMAT|NODE_COORD_SECTION|EDGE_WEIGHT_SECTION)\s*(:|$)/m.test(text);

// n, the table, the points or null where there are weights, and the rule or null. Throws BadBoard for a text that is
// none, and Refused for one that the library refuses otherwise.
export function readText(data) {
    const n = pointsOf(data), table = new Uint32Array(edgeCount(n) <= edgeCount(180) ? edgeCount(n) : 0);
    readTsplib(data, table);
    const seen = new Seen(linesOf(data).slice(0, -1));
    const points = seen.explicit ? null : seen.data.map(words => words.slice(1).map(Number));
    return { n, table, points, rule: seen.explicit ? null : NUMBERS[seen.values[TYPE]] };
}

function pointsOf(data) {
    try {
        return tsplibPoints(data);
    } catch (refused) {
        if (!(refused instanceof Refused)) throw refused;
        throw new BadBoard(complaint(linesOf(data), refused.line), refused.line);
    }
}

// The lines of a text, a character a byte; the last has no newline.
const linesOf = data => Array.from(data, byte => String.fromCharCode(byte)).join("").split("\n");

const isNumber = word => /^[0-9]+$/.test(word);
const trim = text => text.replace(/^ +| +$/g, "");
const wordsOf = line => line.split(/[\t-\r\x1c-\x20\x85\xa0]+/).filter(word => word);

// What lines say that a text of the language begins with: values by keyword, the section, the words of its lines.
class Seen {
    constructor(lines) {
        Object.assign(this, { values: {}, section: null, data: [], ended: false });
        lines.forEach(line => this.take(line));
    }

    take(line) {
        if (this.section) {
            this.ended = trim(line) === "EOF";
            if (!this.ended) this.data.push(wordsOf(line));
        } else if (line.includes(":")) {
            const [keyword, value] = keywordLine(line);
            this.values[keyword] = value;
        } else {
            this.section = trim(line);
        }
    }

    get n() {
        return Number(this.values.DIMENSION);
    }

    get explicit() {
        return this.values[TYPE] === EXPLICIT;
    }

    // How many nodes or weights are to come.
    get left() {
        if (this.section === NODES) return this.n - this.data.length;
        return edgeCount(this.n) - this.data.reduce((count, words) => count + words.length, 0);
    }

    // The keywords that a section wants and that are not there.
    missing() {
        return ["DIMENSION", TYPE, ...(this.explicit ? [FORMAT] : [])].filter(keyword => !(keyword in this.values));
    }

    // Whether a keyword may stand next, with some value.
    mayStand(keyword) {
        const withRule = TYPE in this.values && !this.explicit;
        return keyword === "COMMENT" || !(keyword in this.values) && !(keyword === FORMAT && withRule);
    }

    // What may stand next, in words.
    expected() {
        if (this.ended) return say("tsp_end");
        if (this.section && this.left === 0) return say("tsp_eof",
            { last: say(this.section === NODES ? "tsp_last_node" : "tsp_last_weight") });
        if (this.section === NODES) return say("tsp_node", { i: this.data.length + 1, n: this.n });
        if (this.section) return counted(this.left, "more weight");
        const section = this.missing().length ? [] : [this.explicit ? WEIGHTS : NODES];
        return either([...section, ...Object.keys(VALUES).filter(keyword => this.mayStand(keyword)).map(keyword => `${keyword} :`)]);
    }
}

// The keyword and the value of a line with a colon.
function keywordLine(line) {
    const at = line.indexOf(":");
    return at < 0 ? [trim(line), ""] : [trim(line.slice(0, at)), trim(line.slice(at + 1))];
}

// What was expected at a line that is refused, and what stands there. The last of the lines has no newline.
function complaint(lines, at) {
    const seen = new Seen(lines.slice(0, at - 1)), line = lines[at - 1];
    if (at === lines.length && line && !seen.ended) return say("tsp_newline", { line: shown(line) });
    if (at === lines.length && !line) return say("tsp_ends", { wanted: seen.expected() });
    return (seen.section ? null : ofHeader(seen, line) ?? ofSection(seen, line)) ?? ofLine(seen, line);
}

// What is wrong with a keyword line, or null where its keyword is none.
function ofHeader(seen, line) {
    const [keyword, text] = keywordLine(line), value = shown(text);
    if (!line.includes(":") || !Object.hasOwn(VALUES, keyword)) return null;
    if (keyword in seen.values) return say("tsp_second", { keyword });
    if (!seen.mayStand(keyword)) return say("tsp_no_format", { keyword, type: seen.values[TYPE] });
    if (keyword === TYPE && Object.hasOwn(NUMBERS, text)) return say("tsp_explicit", { keyword, value });
    return say("tsp_value", { values: VALUES[keyword], keyword, value, hint: hint(seen, text) });
}

// What is wrong with a section's name, or null where the line is none or it is the wrong one.
function ofSection(seen, line) {
    const name = trim(line.replaceAll(":", ""));
    if ([...SECTIONS, "EOF"].includes(name) && line.includes(":")) return say("tsp_colon", { name, line: shown(line) });
    if (SECTIONS.includes(name) && seen.missing().length) return say("tsp_above", { keywords: seen.missing().join(" and "), name });
    return null;
}

function ofLine(seen, line) {
    return say("tsp_line", { wanted: seen.expected(), line: shown(line), hint: hint(seen, line) });
}

// A line in words.
function shown(line) {
    if (!trim(line)) return say(line ? "tsp_blanks" : "tsp_nothing");
    const text = [...new TextDecoder("utf-8", { ignoreBOM: true }).decode(Uint8Array.from(line, letter => letter.charCodeAt(0)))];
    const part = text.length <= SHOWN ? text : [...text.slice(0, SHOWN), ".", "."];
    return `"${part.map(letter => (letter !== " " && UNSEEN.test(letter) ? escaped(letter) : letter)).join("")}"`;
}

// A letter that is not seen, as its number.
function escaped(letter) {
    const named = { "\t": "\\t", "\r": "\\r", "\n": "\\n" }[letter], code = letter.codePointAt(0).toString(16);
    if (named) return named;
    return code.length <= 2 ? `\\x${code.padStart(2, "0")}` : code.length <= 4 ? `\\u${code.padStart(4, "0")}`
        : `\\U${code.padStart(8, "0")}`;
}

// What often is wrong, in words.
function hint(seen, line) {
    const words = wordsOf(line);
    const real = words.find(word => REAL.test(word) && !isNumber(word)),
        large = words.find(word => isNumber(word) && Number(word) > MAX_32);
    if (line.includes("\t")) return say("tsp_tabs");
    if (line.includes("\r")) return say("tsp_return");
    if (real) return say("tsp_whole", { noun: NOUNS[seen.section] ?? "numbers", word: shown(real) });
    return large ? say("tsp_large", { word: shown(large) }) : "";
}
