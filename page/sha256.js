// SHA-256 (FIPS 180-4), at once: a page from a file may have no crypto.subtle.

const PRIMES = primes(64);
const ROUND = PRIMES.map(p => fraction(Math.cbrt(p))), START = PRIMES.slice(0, 8).map(p => fraction(Math.sqrt(p)));

function primes(count) {
    const found = [];
    for (let p = 2; found.length < count; p++) if (found.every(q => p % q)) found.push(p);
    return found;
}

// The first 32 bits behind the point.
function fraction(number) {
    return (number - Math.floor(number)) * 2 ** 32 >>> 0;
}

const turned = (x, by) => x >>> by | x << 32 - by;

// The digest of bytes, in hexadecimal.
export function sha256(data) {
    const view = new DataView(padded(data).buffer), state = [...START];
    for (let at = 0; at < view.byteLength; at += 64) block(view, at, state);
    return state.map(word => (word >>> 0).toString(16).padStart(8, "0")).join("");
}

// The bytes, a one bit, zeros, and the length in bits.
function padded(data) {
    const full = new Uint8Array(Math.ceil((data.length + 9) / 64) * 64), view = new DataView(full.buffer);
    full.set(data);
    full[data.length] = 0x80;
    view.setUint32(full.length - 8, Math.floor(data.length / 2 ** 29));
    view.setUint32(full.length - 4, data.length * 8 >>> 0);
    return full;
}

function block(view, at, state) {
    const w = new Uint32Array(64);
    for (let i = 0; i < 16; i++) w[i] = view.getUint32(at + 4 * i);
    for (let i = 16; i < 64; i++) {
        const low = turned(w[i - 15], 7) ^ turned(w[i - 15], 18) ^ w[i - 15] >>> 3;
        const high = turned(w[i - 2], 17) ^ turned(w[i - 2], 19) ^ w[i - 2] >>> 10;
        w[i] = w[i - 16] + low + w[i - 7] + high;
    }
    let [a, b, c, d, e, f, g, h] = state;
    for (let i = 0; i < 64; i++) {
        const one = h + (turned(e, 6) ^ turned(e, 11) ^ turned(e, 25)) + (e & f ^ ~e & g) + ROUND[i] + w[i];
        const two = (turned(a, 2) ^ turned(a, 13) ^ turned(a, 22)) + (a & b ^ a & c ^ b & c);
        [a, b, c, d, e, f, g, h] = [one + two | 0, a, b, c, d + one | 0, e, f, g];
    }
    [a, b, c, d, e, f, g, h].forEach((word, i) => { state[i] = state[i] + word | 0; });
}
