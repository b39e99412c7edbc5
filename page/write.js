// Pieces of a sheet to text: as tools/revosti_command/write.py writes it.
import { holdsChain, links, nest } from "revosti/nest";
import { CROSSING, LINE, STRETCH, STRETCH_POINT, ZERO_IN, isCut, numbersOf } from "revosti/parts";
import { RULES } from "revosti/words";

const STEP = "  ", BYTES_A_LINE = 16;

// The text form, with the board.
export function unpack(parts) {
    if (parts.rule === null) return lines(bytesRows(parts.tail, "").length ? bytesRows(parts.tail, "") : ["bytes"]);
    return boardText(parts) + lines([...recordRows(parts.records).map(row => row.text),
        ...bytesRows(parts.tail, isCut(parts) ? STEP : "")]);
}

// The text form without the board.
export const unpackBeside = parts => lines([...recordRows(parts.records).map(row => row.text), ...bytesRows(parts.tail, "")]);

// The board of a text form.
export function boardText(parts) {
    const name = RULES[parts.rule] ? `  # ${RULES[parts.rule]}` : "";
    return lines([`rule ${parts.rule}${name}`, `points ${parts.n}${isCut(parts) ? ", cut" : ""}`,
        ...parts.points.map(([x, y], at) => `${STEP}${at + 1}  ${x} ${y}`)]);
}

const lines = rows => rows.map(row => `${row}\n`).join("");

// Bytes that make no whole number, point or record.
function bytesRows(data, indent) {
    const rows = [];
    for (let at = 0; at < data.length; at += BYTES_A_LINE) {
        const piece = [...data.slice(at, at + BYTES_A_LINE)].map(byte => byte.toString(16).padStart(2, "0"));
        rows.push(`${indent}bytes ${piece.join(" ")}`);
    }
    return rows;
}

// One row a record, in the order of their numbers, with the numbers of its first and last record: the points of a new
// order stand in its row if nothing is odd about them. A record outside the nesting is indented like the next one
// inside it.
export function recordRows(records) {
    const places = nest(records), { first, after } = links(places), orders = plainOrders(records, places), rows = [];
    const within = new Set([...orders].flatMap(([number, points]) => points.map((_, at) => number + at + 1)));
    let depth = 0;
    for (let number = records.length; number; number--) {
        if (within.has(number)) continue;
        const place = places.get(number), points = orders.get(number) ?? null;
        depth = place ? place.depth : depth;
        const text = recordText(records[number - 1], place, first.get(number) ?? 0, after.get(number) ?? 0, points);
        rows.push({ text: STEP.repeat(depth) + text, first: number, last: number + (points?.length ?? 0) });
    }
    return rows.reverse();
}

// The points of each new order that fits one row: its records follow its own, one leads to the next, and the last to
// none.
function plainOrders(records, places) {
    const chains = new Map();
    for (const [number, place] of places) {
        if (place.shaped && records[number - 1].kind === STRETCH) chains.set(number, []);
        chains.get(place.owner)?.push(number);
    }
    const plain = [...chains].filter(([owner, chain]) => isPlain(records, owner, chain));
    return new Map(plain.map(([owner, chain]) => [owner, chain.map(number => records[number - 1].a)]));
}

// Whether the records of a chain of points are those that `pack` makes of a new order on one line.
function isPlain(records, owner, chain) {
    return chain.every((number, at) => {
        const record = records[number - 1], next = at < chain.length - 1 ? number + 1 : 0;
        return number === owner + at + 1 && String(numbersOf(record)) === String([STRETCH_POINT, record.a, 0, 0, 0, 0, 0, next]);
    });
}

// The text of one record, without its indentation, with the points of its order if they stand in its row.
function recordText(record, place, first, after, points) {
    if (!place) return `unused ${numbersOf(record).join(" ")}`;
    if (!place.shaped) return `record ${numbersOf(record).join(" ")}`;
    return closingText(record, points) + oddText(record, first, after);
}

// The strike or pair with its closing, or the point.
function closingText({ kind, a, b, u, v, c, d }, points) {
    if (kind === LINE) return `strike ${a}-${b}, split at ${c}`;
    if (kind === CROSSING) return `pair ${a}-${b}: crossing ${u}-${v}, centres ${c} ${d}`;
    if (kind === STRETCH) return `pair ${a}-${b}: order ${points === null ? `from ${u} to ${v}` : [u, ...points, v].join("-")}`;
    return kind === STRETCH_POINT ? `point ${a}` : `pair ${a}-${b}: split at ${c}`;
}

// What differs from the usual: unused fields from 0, indexes from the nesting.
function oddText(record, first, after) {
    const odd = [...ZERO_IN[record.kind]].filter(field => record[field]).map(field => [field, record[field]]);
    if (holdsChain(record) && record.d !== first) odd.push(["first", record.d]);
    if (record.next !== after) odd.push(["next", record.next]);
    return odd.map(([word, value]) => `, ${word} ${value}`).join("");
}
