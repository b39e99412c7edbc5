// The compiled module, and what is lent to it: each call gets copies of its buffers, in the module's memory, and takes
// them back. No other file touches the module. All its numbers are little-endian, as those of typed arrays are wherever
// browsers run.
import wasm from "revosti/wasm";

const GUARD = 64; // bytes before, between and behind the buffers that are lent; a call that writes there is an error
const FILL = 0xa5;
const PAGE = 65536; // bytes, the step in which a memory grows

const compiled = await WebAssembly.compile(Uint8Array.from(atob(wasm), (letter) => letter.charCodeAt(0)));
let exported = null;

/**
 * What a function of include/revosti.h answers, a BigInt with a sign. A typed array stands for a buffer and its length;
 * a number is 32 bits or fewer, a BigInt 64. Whatever the call writes is written to the arrays handed in. After an error
 * the module is made anew.
 */
export function call(name, ...given) {
    exported ??= new WebAssembly.Instance(compiled).exports;
    if (!(name in exported)) throw new Error(`this module has no ${name}`);
    const lent = given.filter(ArrayBuffer.isView).map(bytesOf);
    const places = placesOf(lent);
    try {
        lend(lent, places);
        const answer = exported[name](...wordsOf(given, places));
        takeBack(lent, places);
        return answer;
    } catch (error) {
        exported = null; // its stack may be left anywhere
        throw error;
    }
}

function bytesOf(array) {
    return new Uint8Array(array.buffer, array.byteOffset, array.byteLength);
}

/** Where each buffer lies, and, as the last place, where the room behind the last guard begins. */
function placesOf(lent) {
    const places = [exported.__heap_base.value + GUARD];
    for (const bytes of lent) places.push(places.at(-1) + bytes.length + GUARD);
    return places;
}

function lend(lent, places) {
    const missing = places.at(-1) - exported.memory.buffer.byteLength;
    if (missing > 0) exported.memory.grow(Math.ceil(missing / PAGE));
    const memory = new Uint8Array(exported.memory.buffer);
    memory.fill(FILL, places[0] - GUARD, places.at(-1));
    lent.forEach((bytes, i) => memory.set(bytes, places[i]));
}

/** The words of a call: of a buffer its place and its length, which is 64 bits wide. */
function wordsOf(given, places) {
    let next = 0;
    return given.flatMap((one) => (ArrayBuffer.isView(one) ? [places[next++], BigInt(one.byteLength)] : [one]));
}

function takeBack(lent, places) {
    const memory = new Uint8Array(exported.memory.buffer);
    for (const place of places) {
        if (memory.subarray(place - GUARD, place).some((byte) => byte !== FILL)) throw new Error("the module wrote where nothing is lent");
    }
    lent.forEach((bytes, i) => bytes.set(memory.subarray(places[i], places[i] + bytes.length)));
}
