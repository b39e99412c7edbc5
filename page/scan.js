// Text into lines of tokens, with a place for every complaint: as tools/revosti_command/scan.py reads it.
import { say } from "revosti/say";

// What Python takes for white space, which a browser does not quite.
const BLANKS = "\\t-\\r\\x1c-\\x20\\x85\\xa0\\u1680\\u2000-\\u200a\\u2028\\u2029\\u202f\\u205f\\u3000";
const TOKEN = new RegExp(`#[^]*|([0-9A-Za-z_]+|[^${BLANKS}])`, "gu");
const UNSEEN = /^[\p{C}\p{Z}]$/u;

// A text that is no sheet: what is wrong, and at which line and column.
export class BadText extends Error {
    constructor(line, column, words) {
        super(`line ${line}, column ${column}: ${words}`);
        Object.assign(this, { line, column, words });
    }
}

// The lines that hold something, and the end of the text as a last one; `next` is the one that is read.
export function scan(text) {
    const raw = text.split("\n");
    const lines = raw.map((row, at) => new Line(at + 1, row.replace(/\r+$/, "")));
    const end = new Line(raw.length, "");
    end.endOfText = true;
    end.endColumn = characters(raw[raw.length - 1]) + 1;
    return new Lines([...lines.filter(line => line.tokens.length), end]);
}

// The first word of a text, "" where it has none.
export function firstWord(text) {
    for (const row of text.split("\n")) {
        const found = tokens(row.replace(/\r+$/, ""));
        if (found.length) return found[0][0];
    }
    return "";
}

// How many characters a text has; the browser counts those beyond the first plane twice.
const characters = text => (/[\ud800-\udfff]/.test(text) ? [...text].length : text.length);

// The tokens of a line with their columns, without a comment.
function tokens(text) {
    const wide = /[\ud800-\udfff]/.test(text), found = [];
    for (const match of text.matchAll(TOKEN)) {
        if (match[1]) found.push([match[1], (wide ? characters(text.slice(0, match.index)) : match.index) + 1]);
    }
    return found;
}

// Lines that are taken one after the other.
class Lines {
    constructor(lines) {
        this.lines = lines;
        this.at = 0;
    }

    get next() {
        return this.lines[this.at];
    }

    take() {
        return this.lines[this.at++];
    }
}

// A line's tokens and a cursor over them. Each reading method takes the next token or throws BadText at its place.
class Line {
    constructor(number, text) {
        this.number = number;
        this.text = text;
        this.endOfText = false;
        this.tokens = tokens(text);
        const last = this.tokens[this.tokens.length - 1] ?? ["", 1];
        this.endColumn = last[1] + characters(last[0]);
        this.at = 0;
    }

    // The number of characters before the first token.
    get indent() {
        return this.tokens.length ? this.tokens[0][1] - 1 : 0;
    }

    // The next token, or "" at the end.
    peek() {
        return this.tokens[this.at]?.[0] ?? "";
    }

    // The column of the next token, or just past the last one.
    get column() {
        return this.tokens[this.at]?.[1] ?? this.endColumn;
    }

    fail(words) {
        throw new BadText(this.number, this.column, words);
    }

    missed(wanted) {
        this.fail(say("expected", { wanted, found: this.found() }));
    }

    // The next token in words.
    found() {
        if (this.endOfText) return say("end_of_text");
        const token = this.peek();
        if (!token) return say("end_of_line");
        return UNSEEN.test(token) ? say("character", { code: token.codePointAt(0) }) : `"${token}"`;
    }

    startsNumber() {
        return /^[0-9]+$/.test(this.peek());
    }

    // Takes one of these words or signs.
    word(...words) {
        const token = this.peek();
        if (!words.includes(token)) this.missed(words.map(word => `"${word}"`).join(" or "));
        this.at++;
        return token;
    }

    // Takes these tokens if all of them follow; whether they did.
    take(...words) {
        if (!words.every((word, i) => this.tokens[this.at + i]?.[0] === word)) return false;
        this.at += words.length;
        return true;
    }

    // Takes a number from 0 to the limit.
    integer(what, limit) {
        if (!this.startsNumber()) this.missed(what);
        const digits = this.peek().replace(/^0+/, "") || "0";
        if (digits.length > 10 || Number(digits) > limit) this.fail(say("from_0_to", { what, limit, digits }));
        this.at++;
        return Number(digits);
    }

    // Takes a byte as two hexadecimal digits.
    byte() {
        if (!/^[0-9A-Fa-f]{2}$/.test(this.peek())) this.missed(say("a_byte"));
        return parseInt(this.tokens[this.at++][0], 16);
    }

    // Nothing may follow.
    end() {
        if (this.peek()) this.missed(say("end_of_line"));
    }

    // Indentation is in blanks, so that depth has one reading.
    onlyBlanks() {
        const blanks = /^ */.exec(this.text)[0].length;
        if (blanks < this.indent) throw new BadText(this.number, blanks + 1, say("only_blanks"));
    }
}
