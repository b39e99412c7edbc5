// Sets of marks in files with their fingerprints: the formats of tools/revosti_command/archive.py and fingerprint.py.
import { NAMES, edgeCount, edges, markAt, marksSize, name } from "revosti/edges";
import { counted, say } from "revosti/say";
import { sha256 } from "revosti/sha256";

const SHOWN = 12; // digits of a digest in messages
const DIGEST = /^[0-9a-f]{64}$/;
const VALUES = { points: /^[0-9]{1,3}$/, table: DIGEST, high: DIGEST, cut: DIGEST };
const HEAD = "# which lengths the set of marks beside it is of (docs/FORMATS.md)\n";

// A file that is no set, or one of another board: what is wrong.
export class BadSet extends Error {}

// The set of n points in a file. Throws BadSet.
export function readSet(data, n) {
    const count = edgeCount(n);
    if (data.length !== marksSize(n)) {
        const hint = data.length === count ? say("byte_set") : "";
        throw new BadSet(say("set_size", {
            points: counted(n, "point"), bytes: counted(marksSize(n), "byte"), found: counted(data.length, "byte"), hint }));
    }
    edges(n).forEach(([a, b], at) => {
        if (!(markAt(data, at) in NAMES)) throw new BadSet(say("set_mark", { edge: name(a, b), mark: markAt(data, at) }));
    });
    const unused = count % 4 ? data[data.length - 1] >> 2 * (count % 4) : 0;
    if (unused) throw new BadSet(say("set_unused", { bits: unused.toString(2) }));
    return data.slice();
}

// The digest of a table: SHA-256 of its lengths, 32 bits each, little-endian.
export function digest(table) {
    const bytes = new Uint8Array(4 * table.length), view = new DataView(bytes.buffer);
    table.forEach((length, at) => view.setUint32(4 * at, length, true));
    return sha256(bytes);
}

// The fingerprint of a board, as text.
export const fingerprintText = lengths => `${HEAD}points ${lengths.n}\ntable ${digest(lengths.table)}\n`;

// What a fingerprint says: n and the digests. Throws BadSet.
export function readFingerprint(text) {
    const values = {};
    text.split(/\r\n|\n|\r/).forEach((row, at) => {
        const words = row.split("#")[0].split(/\s+/).filter(word => word);
        if (!words.length) return;
        const [key, value] = words;
        const fits = words.length === 2 && Object.hasOwn(VALUES, key) && !(key in values) && VALUES[key].test(value);
        if (!fits) throw new BadSet(say("print_line", { line: at + 1 }));
        values[key] = value;
    });
    if (!("points" in values && "table" in values)) throw new BadSet(say("print_lacks"));
    return { n: Number(values.points), table: values.table, high: values.high ?? null, cut: values.cut ?? null };
}

// Holds a board against the fingerprint of a set that is changed over it. Throws BadSet.
export function hold(found, lengths) {
    const table = digest(lengths.table);
    if (found.n === lengths.n && found.table === table && found.high === null || table === found.cut) return;
    if (found.high !== null && [found.table, found.high].includes(table)) throw new BadSet(say("set_limits"));
    throw new BadSet(say("set_other", { points: counted(found.n, "point"), digest: found.table.slice(0, SHOWN),
        these: counted(lengths.n, "point"), this: table.slice(0, SHOWN) }));
}
