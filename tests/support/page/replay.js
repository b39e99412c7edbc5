// Replays the calls of a file that tests/support/page/recording.py describes, each twice: by page/lending.js, for the answer as
// it is, and by page/revosti.js. given: the signatures. The file is the one chosen in the input #recorded. It returns how
// many calls of each function there were, and the first that differ.
const [signatures] = given;
const { call } = await import("revosti/lending");
const revosti = await import("revosti/revosti");

const file = await document.querySelector("#recorded").files[0].arrayBuffer();
const [pieceCount, callWords] = new Uint32Array(file, 0, 2);
const lengths = new Uint32Array(file, 8, pieceCount);
const words = new Uint32Array(file, 8 + 4 * pieceCount, callWords);
const pieces = [];
let start = 8 + 4 * pieceCount + 4 * callWords;
for (const length of lengths) {
    pieces.push(new Uint8Array(file, start, length));
    start += length;
}
if (start !== file.byteLength) throw new Error("the file has another length than it says");

function same(left, right) {
    if (left.length !== right.length) return false;
    for (let i = 0; i < left.length; i++) if (left[i] !== right[i]) return false;
    return true;
}

const texts = new Map();
const textOf = (piece) => texts.get(piece) ?? texts.set(piece, new TextDecoder().decode(pieces[piece])).get(piece);

function outcomeOf(act) {
    try {
        return JSON.stringify(act() ?? null, (_, one) => (typeof one === "bigint" ? `${one}` : one));
    } catch (error) {
        if (!(error instanceof revosti.Refused)) throw error;
        return `refused ${error.number} ${error.record} ${error.lines} ${error.line} ${error.answer}`;
    }
}

let at = 0;
const next = () => words[at++];
const nextLong = () => BigInt(next()) | (BigInt(next()) << 32n);
const taken = { 0: () => pieces[next()].slice(), 16: next, 32: next, 64: nextLong };

const counts = {};
const wrong = [];
while (at < callWords) {
    const [name, inScript, widths] = signatures[next()];
    const first = widths.map((width) => taken[width]());
    const second = first.map((one) => (ArrayBuffer.isView(one) ? one.slice() : one));
    const expected = { answer: nextLong(), outcome: textOf(next()) };
    expected.buffers = widths.filter((width) => width === 0).map(() => pieces[next()]);
    const answer = BigInt.asUintN(64, call(name, ...first));
    const outcome = outcomeOf(() => revosti[inScript](...second));
    const changed = (buffers) => buffers.filter(ArrayBuffer.isView).some((one, i) => !same(one, expected.buffers[i]));
    counts[name] = (counts[name] ?? 0) + 1;
    if (answer !== expected.answer || outcome !== expected.outcome || changed(first) || changed(second)) {
        wrong.push(`${name}, call ${counts[name]}: ${answer} for ${expected.answer}, ${outcome} for ${expected.outcome}, ` +
            `buffers differ: ${changed(first)}, ${changed(second)}`);
        if (wrong.length >= 20) break;
    }
}
return { counts, wrong };
