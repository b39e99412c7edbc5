// Words of the command (tools/revosti_command/phrases.py), and numbers in sentences.
import { PHRASES, REFUSALS } from "revosti/words";

// A phrase with what stands in its braces filled in.
export function say(name, fields = {}) {
    if (!(name in PHRASES)) throw new Error(`no phrase ${name}`);
    return PHRASES[name].replace(/\{(\w+)\}/g, (_, field) => {
        if (!(field in fields)) throw new Error(`phrase ${name} wants ${field}`);
        return String(fields[field]);
    });
}

// A refusal's meaning.
export const meaning = number => REFUSALS[number] ?? PHRASES.unknown_refusal;

// A number as it is printed: 1,281.
export const grouped = number => String(number).replace(/\B(?=(\d{3})+$)/g, ",");

// A number with its noun: 1 edge, 2 edges.
export const counted = (number, noun) => `${grouped(number)} ${noun}${number === 1 ? "" : "s"}`;

// The verb for so many things.
export const are = number => (number === 1 ? "is" : "are");

// One of some words: a, b or c.
export const either = words => (words.length > 1 ? `${words.slice(0, -1).join(", ")} or ${words[words.length - 1]}` : words[0]);

// Some words: a, b and c.
export function listed(words) {
    const first = words.slice(0, -1), last = words[words.length - 1];
    return first.length ? `${first.join(", ")} and ${last}` : last;
}
