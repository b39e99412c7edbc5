// Text to the pieces of a sheet: as tools/revosti_command/read.py reads it.
import { Chains } from "revosti/chains";
import { CROSSING, FIELDS, LINE, MAX_16, MAX_32, POINT_SIZE, SPLIT, STRETCH, STRETCH_POINT, ZERO_IN, split } from "revosti/parts";
import { say } from "revosti/say";
import { firstWord, scan } from "revosti/scan";
import { RULES } from "revosti/words";

const NUMBERS = Object.fromEntries(Object.entries(RULES).map(([rule, name]) => [name, Number(rule)]));
const NOTHING = new Uint8Array(0);

// The sheet that a text describes: its pieces, and the line of text of each record. Throws BadText.
export function pack(text) {
    const lines = scan(text);
    if (lines.next.peek() === "bytes") {
        const tail = readBytes(lines);
        close(lines, say("bytes_or_end"));
        return { parts: { rule: null, n: null, points: [], records: [], tail }, lines: [] };
    }
    const rule = readRule(lines), [n, cut] = readCount(lines);
    if (cut) return { parts: readCut(lines, rule, n), lines: [] };
    const points = [];
    while (points.length < n) points.push(readPoint(lines, points.length + 1, n));
    return readRest(lines, { rule, n, points });
}

// The sheet of a text that has no board. Throws BadText.
export function packBeside(text) {
    const lines = scan(text);
    if (["rule", "points"].includes(lines.next.peek())) {
        lines.next.fail(say("board_is_beside", { found: lines.next.found() }));
    }
    return readRest(lines, { n: null, points: null });
}

// Whether a text begins with a board, or with bytes in its place.
export const hasBoard = text => ["rule", "points", "bytes"].includes(firstWord(text));

// The line at which the records of a text with a board begin, or the line past the last.
export function recordsFrom(text) {
    const words = Object.keys(READERS), lines = scan(text);
    while (!lines.next.endOfText && !words.includes(lines.next.peek())) lines.take();
    return lines.next.endOfText ? lines.next.number + 1 : lines.next.number;
}

function readRest(lines, board) {
    const chains = readRecords(lines), tail = readBytes(lines);
    close(lines, tail.length ? say("end_of_text") : chains.lines.length ? say("record_or_bytes") : '"strike"');
    return { parts: { ...board, records: chains.finished(), tail }, lines: chains.lines };
}

function close(lines, wanted) {
    if (!lines.next.endOfText) lines.next.missed(wanted);
}

// The line `rule R`, by number or by name.
function readRule(lines) {
    const line = lines.next;
    line.word("rule", "bytes");
    const named = Object.hasOwn(NUMBERS, line.peek());
    const rule = named ? NUMBERS[line.word(...Object.keys(NUMBERS))] : line.integer(say("a_rule"), MAX_32);
    line.end();
    lines.take();
    return rule;
}

// The line `points N` or `points N, cut`.
function readCount(lines) {
    const line = lines.next;
    line.word("points");
    const n = line.integer(say("count"), MAX_32), cut = line.take(",", "cut");
    if (line.peek()) line.missed(say("cut_or_end"));
    lines.take();
    return [n, cut];
}

// The line of point i: its number and two coordinates.
function readPoint(lines, i, n) {
    const line = lines.next;
    if (!line.startsNumber()) line.missed(say("point_of", { i, n }));
    if (line.integer(say("point_number"), MAX_32) !== i) {
        line.at = 0;
        line.missed(say("point_of", { i, n }));
    }
    const point = [line.integer(say("first_coordinate"), MAX_32), line.integer(say("second_coordinate"), MAX_32)];
    line.end();
    lines.take();
    return point;
}

// The points and bytes of a file that ends inside the coordinates.
function readCut(lines, rule, n) {
    const points = [];
    while (lines.next.startsNumber()) points.push(readPoint(lines, points.length + 1, n));
    const last = lines.next, tail = readBytes(lines);
    close(lines, say(tail.length ? "bytes_or_end" : "point_or_end"));
    if (points.length * POINT_SIZE + tail.length >= n * POINT_SIZE) {
        last.at = 0;
        last.fail(say("fewer_points", { n }));
    }
    const whole = Math.floor(tail.length / POINT_SIZE) * POINT_SIZE;
    return { rule, n, points: [...points, ...pointsOf(tail.slice(0, whole))], records: [], tail: tail.slice(whole) };
}

// The points that bytes make.
function pointsOf(data) {
    const head = new Uint8Array([1, 0, 0, 0, data.length / POINT_SIZE & 255, data.length / POINT_SIZE >> 8, 0, 0]);
    return split(new Uint8Array([...head, ...data])).points;
}

// The bytes of all `bytes` lines here.
function readBytes(lines) {
    const data = [];
    while (lines.next.peek() === "bytes") {
        const line = lines.take();
        line.word("bytes");
        while (line.peek()) data.push(line.byte());
    }
    return data.length ? new Uint8Array(data) : NOTHING;
}

const READERS = { strike: readStrike, pair: readPair, point: readVisit, record: readRaw, unused: readUnused };

// All record lines here.
function readRecords(lines) {
    const chains = new Chains();
    while (Object.hasOwn(READERS, lines.next.peek())) {
        const line = lines.take();
        READERS[line.peek()](line, chains);
        line.end();
    }
    return chains;
}

// `strike A-B, split at C` and options.
function readStrike(line, chains) {
    chains.place(line);
    line.word("strike");
    const [a, b] = readEdge(line);
    line.word(",");
    readSplit(line, chains, LINE, a, b);
}

// `pair A-B:` and a split, a crossing or a new order.
function readPair(line, chains) {
    chains.place(line);
    line.word("pair");
    const [a, b] = readEdge(line);
    line.word(":");
    const closing = line.peek();
    if (closing === "split") readSplit(line, chains, SPLIT, a, b);
    else if (closing === "crossing") readCrossing(line, chains, a, b);
    else if (closing === "order") readOrder(line, chains, a, b);
    else line.missed(say("a_closing"));
}

// `crossing P-Q, centres R S`.
function readCrossing(line, chains, a, b) {
    line.word("crossing");
    const [u, v] = readEdge(line);
    line.word(",");
    line.word("centres");
    const c = readPointNumber(line), d = readPointNumber(line);
    chains.add(line, [CROSSING, a, b, u, v, c, d, 0], readOptions(line, ["next"]));
}

// `order U-X-..-V`, all points on the line, or `order from U to V`, with a line for each point under it.
function readOrder(line, chains, a, b) {
    line.word("order");
    const below = line.take("from");
    if (!below && !line.startsNumber()) line.missed(say("point_or_from"));
    const points = below ? readEnds(line) : readPath(line), u = points[0], v = points[points.length - 1];
    const options = readOptions(line, [...ZERO_IN[STRETCH], "first", "next"]);
    chains.add(line, fields(STRETCH, options, { a, b, u, v }), options, below ? "point" : null);
    chains.addPoints(line, points.slice(1, -1).map(point => fields(STRETCH_POINT, {}, { a: point })));
}

// `point X` and options: a point of a new order.
function readVisit(line, chains) {
    chains.place(line);
    line.word("point");
    const a = readPointNumber(line), options = readOptions(line, [...ZERO_IN[STRETCH_POINT], "next"]);
    chains.add(line, fields(STRETCH_POINT, options, { a }), options);
}

// The eight numbers of a record: those that are known, those that its options give, else 0.
function fields(kind, options, known) {
    return [kind, ...FIELDS.slice(1).map(field => known[field] ?? options[field] ?? 0)];
}

// `split at C` and options: a record that holds a split.
function readSplit(line, chains, kind, a, b) {
    line.word("split");
    line.word("at");
    const c = readPointNumber(line), options = readOptions(line, [...ZERO_IN[kind], "first", "next"]);
    chains.add(line, fields(kind, options, { a, b, c }), options, "pair");
}

// `record` and eight numbers: a member of its chain of any kind.
function readRaw(line, chains) {
    chains.place(line);
    line.word("record");
    const numbers = readEight(line);
    chains.add(line, numbers, { first: numbers[6], next: numbers[7] });
}

// `unused` and eight numbers: a record that no chain reaches.
function readUnused(line, chains) {
    if (!chains.lines.length) line.fail(say("first_unused"));
    line.word("unused");
    chains.append(line, readEight(line), {});
}

function readEight(line) {
    return [1, 2, 3, 4, 5, 6, 7, 8].map(i => line.integer(say("number_of_8", { i }), MAX_16));
}

function readPointNumber(line) {
    return line.integer(say("a_point"), MAX_16);
}

// Two points with a hyphen between.
function readEdge(line) {
    const a = readPointNumber(line);
    line.word("-");
    return [a, readPointNumber(line)];
}

// Two points with "to" between.
function readEnds(line) {
    const u = readPointNumber(line);
    line.word("to");
    return [u, readPointNumber(line)];
}

// Two points or more with hyphens between.
function readPath(line) {
    const points = readEdge(line);
    while (line.take("-")) points.push(readPointNumber(line));
    return points;
}

// Options such as `, next 7`, each at most once, in the order of the words.
function readOptions(line, words) {
    const options = {};
    while (line.peek() && words.length) {
        if (!line.take(",")) line.missed(say("comma_or_end"));
        const word = line.word(...words);
        options[word] = line.integer(say("number_after", { word }), MAX_16);
        words = words.slice(words.indexOf(word) + 1);
    }
    return options;
}
