// The functions of include/revosti.h, one by one, with their arguments in its order and typed arrays for its buffers:
// coordinates and tables are Uint32Array, sheets, tours and lists Uint16Array, marks, byte sets, views, texts and desks
// Uint8Array. What a call writes is written to the arrays handed in. A refusal is thrown as `Refused`; a number that
// does not fit its argument is a RangeError.
import { call } from "revosti/lending";
import * as part from "revosti/answer";

export * from "revosti/answer";

/**
 * A call that is refused: the number, the record at fault and the lines accepted before it (0 but for sheets), the line
 * at fault of a text or a page (0 but for 19 and 27), and the answer itself, which is a slip where a sheet is marked or
 * asked.
 */
export class Refused extends Error {
    constructor(answer, { record = 0, lines = 0, line = 0 } = {}) {
        super(`refused, number ${part.refusal(answer)}`);
        Object.assign(this, { name: "Refused", number: part.refusal(answer), record, lines, line, answer });
    }
}

export function measure(n, rule, coordinates, table) {
    answered("revosti_measure", word(n), word(rule), coordinates, table);
}

/** The number of points. */
export function readTsplib(text, table) {
    return part.points(called(lineOfText, "revosti_read_tsplib", text, table));
}

/** The number of points, which may be any. */
export function tsplibPoints(text) {
    return part.points(called(lineOfText, "revosti_tsplib_points", text));
}

export function freshMarks(n, marks) {
    answered("revosti_fresh_marks", word(n), marks);
}

export function packMarks(n, bytes, packed) {
    answered("revosti_pack_marks", word(n), bytes, packed);
}

export function unpackMarks(n, packed, bytes) {
    answered("revosti_unpack_marks", word(n), packed, bytes);
}

/** The lines accepted, which are all that are reached, and the answer, a slip. */
export function markSheet(n, table, marks, sheet) {
    return judged("revosti_mark_sheet", word(n), table, marks, sheet);
}

export function askSheet(n, table, marks, sheet) {
    return judged("revosti_ask_sheet", word(n), table, marks, sheet);
}

export function markBetween(n, low, high, marks, sheet) {
    return judged("revosti_mark_between", word(n), low, high, marks, sheet);
}

export function confirm(n, marks) {
    answered("revosti_confirm", word(n), marks);
}

export function withdraw(n, marks) {
    answered("revosti_withdraw", word(n), marks);
}

/** The length of a tour, and whether all its edges are open. */
export function checkTour(n, table, marks, tour) {
    const answer = answered("revosti_check_tour", word(n), table, marks, tour);
    return { length: part.tourLength(answer), open: part.tourOpen(answer) };
}

/** The number of pairs; the list has x and y of each. */
export function listPairs(n, table, marks, a, b, c, list) {
    return part.pairs(answered("revosti_list_pairs", word(n), table, marks, half(a), half(b), half(c), list));
}

export function listBetween(n, low, high, marks, a, b, c, list) {
    return part.pairs(answered("revosti_list_between", word(n), low, high, marks, half(a), half(b), half(c), list));
}

export function exchangeSaving(n, table, p, q, x, y) {
    return part.saving(answered("revosti_exchange_saving", word(n), table, ...[p, q, x, y].map(half)));
}

export function moveSaving(n, table, c, x, y, u, v) {
    return part.saving(answered("revosti_move_saving", word(n), table, ...[c, x, y, u, v].map(half)));
}

export function crossingSaving(n, table, p, q, r, s, x, y, z, w) {
    return part.saving(answered("revosti_crossing_saving", word(n), table, ...[p, q, r, s, x, y, z, w].map(half)));
}

/** The slip, released; a BigInt without a sign, as it is handed in. */
export function release(slip) {
    return BigInt.asUintN(64, call("revosti_release", long(slip)));
}

export function examinerView(slip, bytes) {
    answered("revosti_examiner_view", long(slip), bytes);
}

export function candidateView(slip, bytes) {
    answered("revosti_candidate_view", long(slip), bytes);
}

/** How many bytes the page has. */
export function writePage(n, table, marks, page, text) {
    return part.pageBytes(answered("revosti_write_page", word(n), table, marks, word(page), text));
}

export function readPage(n, page, text, table, marks) {
    called((answer) => ({ line: part.wrongLine(answer) }), "revosti_read_page", word(n), word(page), text, table, marks);
}

export function openDesks(desks) {
    answered("revosti_open_desks", desks);
}

export function handIn(desks, desk, n, table, marks, sheet) {
    answered("revosti_hand_in", desks, word(desk), word(n), table, marks, sheet);
}

/** The desk that the next turn serves, 0 where none has a line left. */
export function nextDesk(desks) {
    return part.next(answered("revosti_next_desk", desks));
}

/** The desk served, whether it has a line left, and its verdict so far, refused or not; null where none has a line. */
export function turn(desks, n, table, marks, sheet) {
    const answer = BigInt.asUintN(64, call("revosti_turn", desks, word(n), table, marks, sheet));
    if (answer === 0n) return null;
    const desk = part.desk(answer);
    if (desk === 0) throw new Refused(answer);
    const verdict = { refusal: part.refusal(answer), record: part.record(answer), lines: part.lines(answer) };
    return { desk, lineLeft: part.lineLeft(answer), ...verdict, answer };
}

/** How many bytes the sentences of a line have, which are written to the front of the text. */
export function tellLine(n, table, marks, sheet, record, text) {
    const place = (answer) => ({ record: part.record(answer) });
    return part.toldBytes(called(place, "revosti_tell_line", word(n), table, marks, sheet, word(record), text));
}

/** The answer of a call. Where it is refused, `place` takes out of the answer what it names beside the number. */
function called(place, name, ...given) {
    const answer = BigInt.asUintN(64, call(name, ...given));
    if (part.refusal(answer)) throw new Refused(answer, place(answer));
    return answer;
}

const lineOfText = (answer) => ({ line: part.textLine(answer) });
const answered = (name, ...given) => called(() => ({}), name, ...given);

/** What a call says of a sheet. */
function judged(name, ...given) {
    const answer = called((refused) => ({ record: part.record(refused), lines: part.lines(refused) }), name, ...given);
    return { lines: part.lines(answer), answer };
}

const word = (number) => fit(number, 0xffffffff);
const half = (number) => fit(number, 0xffff);

function fit(number, most) {
    if (!Number.isInteger(number) || number < 0 || most < number) throw new RangeError(`${number} is no whole number from 0 to ${most}`);
    return number;
}

function long(number) {
    if (BigInt.asUintN(64, number) !== number) throw new RangeError(`${number} is no whole number of 64 bits`);
    return number;
}
