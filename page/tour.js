// Tours as texts, and the check in words: as tools/revosti_command/tour.py reads and says them.
import { STRUCK, edge, markOf, name } from "revosti/edges";
import { MAX_16 } from "revosti/parts";
import { are, counted, grouped, listed, say } from "revosti/say";

const SECTION = "TOUR_SECTION", SHOWN = 40; // characters of a word

// A text that names no points.
export class BadTour extends Error {}

// The points that a text names: numbers with commas or blanks between, or a TSPLIB tour file.
export function readTour(text) {
    if (text.includes(SECTION)) return readSection(text);
    const words = text.includes(",") ? text.split(",").map(word => word.trim()) : text.split(/\s+/).filter(word => word);
    return words.map(point);
}

// Behind the section's name, up to -1, EOF or the end.
function readSection(text) {
    const at = text.indexOf(SECTION), kind = /^\s*TYPE\s*:\s*(\S+)/m.exec(text.slice(0, at));
    if (kind && kind[1] !== "TOUR") throw new BadTour(say("tour_type", { kind: cut(kind[1]) }));
    const words = text.slice(at + SECTION.length).split(/\s+/).filter(word => word);
    const end = words.findIndex(word => ["-1", "EOF"].includes(word));
    return words.slice(0, end < 0 ? words.length : end).map(point);
}

function point(word) {
    const digits = word.replace(/^0+/, "") || "0";
    if (!/^[0-9]+$/.test(word)) throw new BadTour(say("tour_word", { word: cut(word) }));
    if (digits.length > 5 || Number(digits) > MAX_16) throw new BadTour(say("tour_point", { most: MAX_16, digits: cut(digits) }));
    return Number(digits);
}

const cut = word => (word.length <= SHOWN ? word : `${word.slice(0, SHOWN)}..`);

// The edges of a tour.
export const legs = tour => tour.map((a, at) => edge(a, tour[(at + 1) % tour.length]));

export const struckLegs = (n, marks, tour) => legs(tour).filter(e => markOf(n, marks, ...e) === STRUCK);

// What makes some points no tour, in words, or null.
export function wrongTour(n, tour) {
    const outside = tour.find(p => p < 1 || p > n);
    if (outside !== undefined) return say("tour_outside", { point: outside, n });
    const times = p => tour.filter(q => q === p).length;
    const all = Array.from({ length: n }, (_, at) => at + 1);
    const twice = all.find(p => times(p) > 1), missing = all.find(p => times(p) === 0);
    if (twice) return say("tour_twice", { point: twice, times: counted(times(twice), "time") });
    return missing ? say("tour_missing", { point: missing }) : null;
}

// The check in words.
export function tourWords(length, struck) {
    const edges = struck.length === 0 ? say("tour_open") : say("tour_struck", {
        edges: counted(struck.length, "edge"), are: are(struck.length), names: listed(struck.map(e => name(...e))) });
    return say("tour", { length: grouped(length), edges });
}
