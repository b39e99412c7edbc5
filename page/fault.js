// What a sheet lacks, where it is refused: as tools/revosti_command/fault.py tells it. A sentence or two, or none where
// sheet and library do not settle it; nothing here is a guess.
import { ends, has, name } from "revosti/edges";
import { Refused } from "revosti/lengths";
import { holdsChain, holdsSplit, kindsUnder } from "revosti/nest";
import { CROSSING, LINE, MAX_COORDINATE, MAX_FILE, MAX_RECORDS, RECORD_SIZE, STRETCH, STRETCH_POINT, isCut, join } from "revosti/parts";
import { counted, either, grouped, say } from "revosti/say";
import { measuredPath, noSegment, notShorter, otherPoints, segmentOf } from "revosti/segment";
import { Sight, unwanted } from "revosti/sight";
import { RULES } from "revosti/words";

const MOST_DUE = 12; // pairs that a sentence names
const LEAST_POINTS = 4, MOST_POINTS = 180;

// What is known about a refusal: a sentence or null, and the pairs that are due, where they are known.
export function detail(parts, verdict) {
    if (verdict.record === 0) return { words: fileWords(parts, verdict.refusal), due: null };
    if (verdict.record > parts.records.length) return { words: null, due: null };
    const sight = new Sight(parts.records, verdict.lengths, verdict.closed(), verdict.record);
    if (verdict.refusal === 14) return duePairs(sight);
    return { words: FINDERS[verdict.refusal]?.(sight) ?? null, due: null };
}

const FINDERS = {
    8: aboveCount, 9: notRising, 10: wrongShape, 11: wrongPoints, 12: struckBefore, 13: openSplits, 15: brokenConditions, 16: bestSaving,
    23: noStretch, 24: noShorterOrder };

// A sentence about a fault outside the records, or null.
export function fileWords(parts, refusal) {
    return { 1: wrongCount, 3: wrongRule, 4: wrongCoordinate, 7: wrongSize }[refusal]?.(parts) ?? null;
}

function wrongCount(parts) {
    const within = parts.n === null || LEAST_POINTS <= parts.n && parts.n <= MOST_POINTS;
    return within ? null : say("here_n", { n: parts.n });
}

function wrongRule(parts) {
    return parts.rule === null || parts.rule in RULES ? null : say("here_rule", { rule: parts.rule });
}

function wrongCoordinate(parts) {
    const at = (parts.points ?? []).findIndex(point => Math.max(...point) > MAX_COORDINATE);
    return at < 0 ? null : say("here_point", { number: at + 1, x: parts.points[at][0], y: parts.points[at][1] });
}

function wrongSize(parts) {
    const count = parts.records.length, left = parts.tail.length;
    if (parts.points !== null) {
        const bytes = counted(join(parts).length, "byte");
        if (parts.rule === null) return say("no_header", { bytes });
        if (isCut(parts)) {
            return say("ends_inside", { count: parts.points.length, points: counted(parts.n, "point"), bytes: counted(left, "byte") });
        }
        if (join(parts).length > MAX_FILE) return say("file_has", { bytes });
    }
    if (left) return say("bytes_follow", { bytes: counted(left, "byte"), follow: left === 1 ? "follows" : "follow", size: RECORD_SIZE });
    if (count === 0) return say("no_records");
    return count > MAX_RECORDS ? say("sheet_has", { records: counted(count, "record") }) : null;
}

// 8: the index above the count, the first in the order followed.
function aboveCount({ record, records }) {
    const count = records.length, told = counted(count, "record");
    if (holdsChain(record) && record.d > count) return say("first_above", { index: record.d, records: told });
    return record.next > count ? say("next_above", { index: record.next, records: told }) : null;
}

// 9: a first index up to its own record, or else the next index.
function notRising({ record, number }) {
    if (holdsChain(record) && record.d > 0 && record.d <= number) return say("first_index", { index: record.d });
    return record.next ? say("next_index", { index: record.next }) : null;
}

function wrongShape({ place, record, records }) {
    if (!place) return null;
    if (!place.shaped) return say("wrong_kind", { kind: record.kind, wanted: either(kindsUnder(records[place.owner - 1]).map(String)) });
    const odd = unwanted(record).map(([field, value]) => say("field_is", { name: field, value }));
    return odd.length ? say("here", { facts: odd.join(" and ") }) : null;
}

function wrongPoints(sight) {
    const { record, n } = sight, same = record.a === record.b && record.kind !== STRETCH_POINT;
    return outside(sight.points(record), n) ?? (same ? say("same_ends", { point: record.a }) : null);
}

// Which of some points, each with its name, the board has not; null where it has all.
export function outside(points, n) {
    const wrong = points.filter(([, point]) => point < 1 || point > n).map(([field, value]) => say("field_is", { name: field, value }));
    return wrong.length ? say("outside", { points: wrong.join(" and "), n }) : null;
}

// 12: the line that strikes the same edge, or the set that has it struck.
function struckBefore(sight) {
    if (!sight.place || sight.place.depth) return null;
    const wanted = name(sight.record.a, sight.record.b);
    const by = sight.siblings(sight.number).find(k => sight.get(k).kind === LINE && name(sight.get(k).a, sight.get(k).b) === wanted);
    return by ? say("struck_by", { record: by }) : say("struck_before");
}

function openSplits(sight) {
    return sight.place ? say("in_splits", { records: sight.owners(sight.number).join(", ") }) : null;
}

// 14: the pairs that are due, if they can be told.
function duePairs(sight) {
    const { place, record } = sight, unknown = { words: null, due: null };
    if (!place?.shaped || record.kind === STRETCH_POINT) return unknown;
    let rest = [];
    if (place.owner) {
        const stand = sight.standing(place.owner), named = sight.siblings(sight.number).map(k => pairOf(sight.get(k)));
        if (stand === null || String(named) !== String(stand.slice(0, named.length))) return unknown;
        rest = stand.slice(named.length);
        if (!rest.length) return { words: say("all_named"), due: [] };
        if (String(rest[0]) !== String(pairOf(record))) return { words: due(rest), due: rest };
    }
    return missingPairs(sight, rest.slice(1));
}

export const pairOf = record => [record.a, record.b];

// The pairs due after a record whose own pair is right: those of its empty chain, or the rest of the chain that it
// ends.
function missingPairs(sight, rest) {
    const { record } = sight;
    if (holdsSplit(record) && record.d === 0) {
        const inner = sight.standing(sight.number);
        if (inner === null) return { words: null, due: null };
        if (inner.length) return { words: due(inner) + say("no_cases"), due: inner };
    }
    if (record.next === 0 && rest.length) return { words: due(rest) + say("chain_ends"), due: rest };
    return { words: null, due: null };
}

// The pairs that are due, the first few of them by name.
function due(pairs) {
    const [pair, ...more] = pairs.map(([a, b]) => `${a}-${b}`);
    if (!more.length) return say("one_due", { pair });
    const shown = more.slice(0, MOST_DUE - 1).join(", ") + (pairs.length > MOST_DUE ? say("and_so_on") : "");
    return say("more_due", { pair, count: grouped(more.length), pairs: shown });
}

// 15: the conditions that are broken.
function brokenConditions(sight) {
    const k = crossed(sight), wrong = k ? broken(sight.record, k) : [];
    return wrong.length ? say("here", { facts: wrong.join("; ") }) : null;
}

// 16: what the best labelling saves.
function bestSaving(sight) {
    const saving = savingOf(sight);
    return saving === null || saving > 0 ? null : say("best_saves", { saving });
}

// What a crossing saves, or null where it breaks a condition.
function savingOf(sight) {
    const k = crossed(sight), { u, v, c, d } = sight.record;
    if (!k || broken(sight.record, k).length) return null;
    try {
        return sight.lengths.saving("crossing", [u, v, c, d, ...ends(k, c), ...ends(k, d)]);
    } catch (refused) {
        if (refused instanceof Refused) return null;
        throw refused;
    }
}

// K at a crossing, its own pair in it, or null.
const crossed = sight => edgesAt(sight, CROSSING);

// K at a record of a kind, its own pair in it, or null.
function edgesAt(sight, kind) {
    return sight.place?.shaped && sight.record.kind === kind ? sight.edges(sight.number) : null;
}

// The conditions of a crossing that are broken.
function broken({ u, v, c, d }, k) {
    const degrees = [c, d].map(centre => ends(k, centre).length), crosses = `${u}-${v}`;
    const tests = [
        [!has(k, u, v), "not_in_k", { edge: crosses }],
        [c === d, "same_centres", {}],
        ...[c, d].map(centre => [centre === u || centre === v, "centre_end", { centre, edge: crosses }]),
        ...[c, d].map((centre, at) => [degrees[at] !== 2, "centre_edges", { centre, edges: counted(degrees[at], "edge") }]),
        [has(k, c, d), "centres_joined", { edge: `${c}-${d}` }],
    ];
    return [...new Set(tests.filter(([wrong]) => wrong).map(([, phrase, fields]) => say(phrase, fields)))];
}


// 23: why K has no such stretch, or what its points and the chain's differ by.
function noStretch(sight) {
    const k = edgesAt(sight, STRETCH), { u, v } = sight.record;
    if (!k) return null;
    const points = segmentOf(k, u, v), named = sight.named(sight.number);
    if (points === null) return noSegment(k, u, v);
    return named === null ? null : otherPoints(points, named);
}

// 24: both lengths.
function noShorterOrder(sight) {
    const { stretch, order } = reordered(sight);
    return stretch && order ? notShorter(stretch, order) : null;
}

// The stretch of a case and its new order, each with its length; null for one that there is not.
export function reordered(sight) {
    const k = edgesAt(sight, STRETCH), { u, v } = sight.record;
    const points = k && segmentOf(k, u, v), named = sight.named(sight.number);
    return { stretch: points && measuredPath(sight.lengths, points), order: k && named && measuredPath(sight.lengths, [u, ...named, v]) };
}
