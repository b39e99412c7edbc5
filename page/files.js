// Files: what a person opens or drops, told apart, and what is saved.
import { el } from "revosti/dom";
import { hasBoard } from "revosti/read";
import { looksLike } from "revosti/tsplib";

const PAGE_ROW = /^ *[0-9]+ +[0-9]+ +[0-9]+ (open|pending|struck) *\n/;
const SHEET_WORDS = /^\s*(#.*|strike|pair|record|unused|bytes)\b/;

// Bytes as text; what is no UTF-8 becomes a character that is refused outside comments.
export const decode = data => new TextDecoder().decode(data);

// Whether bytes look like a text: some, none of them controls.
export const isText = data => data.length > 0 && data.every(byte => byte > 31 || byte === 9 || byte === 10 || byte === 13);

// Whether bytes look like a text in UTF-16, which some editors write.
export function isWide(data) {
    const [even, odd] = [0, 1].map(rest => data.slice(0, 8).filter((_, at) => at % 2 === rest));
    const spaced = data.length >= 8 && [[even, odd], [odd, even]].some(([letters, zeros]) => letters.every(x => x) && zeros.every(x => !x));
    const mark = data[0] === 0xff && data[1] === 0xfe || data[0] === 0xfe && data[1] === 0xff;
    return data.length % 2 === 0 && (mark || spaced);
}

// What a file is: "fingerprint", "set", "tour", "wall", "board", "text" (a sheet), "binary" (a sheet).
export function kindOf(name, data) {
    const ending = /\.([^.]*)$/.exec(name.toLowerCase())?.[1] ?? "";
    if (ending === "fingerprint" || ending === "tour" || ending === "marks") return { marks: "set" }[ending] ?? ending;
    if (isWide(data)) return "text";
    if (!isText(data)) return looksBinary(data) ? "binary" : "set";
    const text = decode(data);
    if (PAGE_ROW.test(text)) return "wall";
    if (text.includes("TOUR_SECTION")) return "tour";
    if (ending === "tsp" || looksLike(text)) return "board";
    return hasBoard(text) || SHEET_WORDS.test(text) ? "text" : "board";
}

// Whether bytes begin as the input of `mark` does: a small rule, a small n.
function looksBinary(data) {
    return data.length >= 8 && [1, 2, 3, 5, 6, 7].every(at => data[at] === 0);
}

// The files of a list or a drop, with their bytes.
export const readFiles = list =>
    Promise.all([...list].map(async file => ({ name: file.name, data: new Uint8Array(await file.arrayBuffer()) })));

// Has the browser save bytes or text under a name.
export function save(name, data) {
    const address = URL.createObjectURL(new Blob([data], { type: "application/octet-stream" }));
    const link = el("a", { href: address, download: name, hidden: true });
    document.body.append(link);
    link.click();
    link.remove();
    setTimeout(() => URL.revokeObjectURL(address), 10_000);
}

// Has a person choose files, several where they belong together.
export function choose(input, multiple, then) {
    input.multiple = multiple;
    input.value = "";
    input.onchange = () => then(input.files);
    input.click();
}
