// A slip in words: what the examiner sees of it, and what the candidate sees, as tools/revosti_command/slip.py says it.
import { STOPPED, VIEW_BYTES, candidateView, examinerView, release } from "revosti/revosti";
import { counted, meaning, say } from "revosti/say";

export { release };

// Both views of a slip, bytes and words. The bytes are the library's.
export function tellSlip(slip) {
    const examiner = viewed(examinerView, slip), candidate = viewed(candidateView, slip), same = String(examiner) === String(candidate);
    return {
        slip, released: examiner[1] === 1, examiner, candidate,
        words: say("slip", { slip, not_: examiner[1] ? "" : "not " }),
        examinerWords: examinerWords(fields(examiner)),
        candidateWords: same ? say("the_same") : candidateWords(fields(candidate)),
    };
}

function viewed(view, slip) {
    const bytes = new Uint8Array(VIEW_BYTES);
    view(slip, bytes);
    return bytes;
}

// What six bytes hold.
function fields(bytes) {
    return { number: bytes[0], record: bytes[2] + 256 * bytes[3], lines: bytes[4] + 256 * bytes[5] };
}

function examinerWords({ number, record, lines }) {
    const found = number ? say("refused_by", { number }) : say("no_refusal");
    return `${found}${record ? `, record ${record}` : ""}, ${accepted(lines)}.${number ? ` ${meaning(number)}` : ""}`;
}

// Until release, 255 tells no number.
function candidateWords({ number, lines }) {
    return `${say(number === STOPPED ? "stopped" : "no_refusal")}, ${accepted(lines)}.`;
}

const accepted = lines => say("lines_accepted", { lines: counted(lines, "line") });
