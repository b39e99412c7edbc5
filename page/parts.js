// The binary input of `mark`, taken apart and put together (docs/FORMATS.md). join(split(data)) is data for all bytes.
import { CROSSING, LINE, SPLIT, STRETCH, STRETCH_POINT } from "revosti/answer";

export { CROSSING, LINE, SPLIT, STRETCH, STRETCH_POINT }; // kinds
// By kind, the fields that are points, and those that are 0.
export const POINTS_OF = { [LINE]: "abc", [SPLIT]: "abc", [CROSSING]: "abuvcd", [STRETCH]: "abuv", [STRETCH_POINT]: "a" };
export const ZERO_IN = { [LINE]: "uv", [SPLIT]: "uv", [CROSSING]: "", [STRETCH]: "c", [STRETCH_POINT]: "buvcd" };
export const MAX_16 = 2 ** 16 - 1, MAX_32 = 2 ** 32 - 1;
export const MAX_COORDINATE = 1_000_000, MAX_RECORDS = 4_000, MAX_FILE = 65_448;
export const HEADER_SIZE = 8, POINT_SIZE = 8, RECORD_SIZE = 16;
export const FIELDS = ["kind", "a", "b", "u", "v", "c", "d", "next"];

// A record, from its eight numbers.
export const record = numbers => Object.fromEntries(FIELDS.map((field, at) => [field, numbers[at]]));
export const numbersOf = r => FIELDS.map(field => r[field]);

// Whether the file ends inside the coordinates.
export const isCut = parts => parts.n !== null && parts.points !== null && parts.points.length < parts.n;

// The pieces of bytes: rule, n, points, records and what is left over. Without a whole header, rule and n are null.
export function split(data) {
    if (data.length < HEADER_SIZE) return { rule: null, n: null, points: [], records: [], tail: data };
    const view = new DataView(data.buffer, data.byteOffset, data.byteLength);
    const rule = view.getUint32(0, true), n = view.getUint32(4, true);
    const whole = Math.min(n, Math.floor((data.length - HEADER_SIZE) / POINT_SIZE));
    const points = [], records = [];
    let at = HEADER_SIZE;
    for (; points.length < whole; at += POINT_SIZE) points.push([view.getUint32(at, true), view.getUint32(at + 4, true)]);
    for (; at + RECORD_SIZE <= data.length; at += RECORD_SIZE) {
        records.push(record(FIELDS.map((_, field) => view.getUint16(at + 2 * field, true))));
    }
    return { rule, n, points, records, tail: data.slice(at) };
}

// The bytes of some records.
export function recordBytes(records) {
    const data = new Uint8Array(RECORD_SIZE * records.length), view = new DataView(data.buffer);
    records.forEach((r, i) => numbersOf(r).forEach((number, field) => view.setUint16(RECORD_SIZE * i + 2 * field, number, true)));
    return data;
}

// The bytes with these pieces.
export function join(parts) {
    if (parts.rule === null) return parts.tail;
    const head = new Uint8Array(HEADER_SIZE + POINT_SIZE * parts.points.length), view = new DataView(head.buffer);
    [parts.rule, parts.n, ...parts.points.flat()].forEach((number, at) => view.setUint32(4 * at, number, true));
    return joined([head, recordBytes(parts.records), parts.tail]);
}

// Bytes one behind the other.
export function joined(pieces) {
    const data = new Uint8Array(pieces.reduce((size, piece) => size + piece.length, 0));
    let at = 0;
    for (const piece of pieces) {
        data.set(piece, at);
        at += piece.length;
    }
    return data;
}
