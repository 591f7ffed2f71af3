/** SHA-256 (FIPS 180-4), by which a person tells two tables apart: a page that is opened from a disk may have no other. */

/** The first 32 bits of the fractional parts of roots of the first primes. @param {number} count @param {number} power */
function roots(count, power) {
    const found = [];
    for (let n = 2; found.length < count; n++) {
        let prime = true;
        for (let k = 2; k * k <= n; k++) prime &&= n % k !== 0;
        if (prime) found.push(((n ** (1 / power)) % 1) * 2 ** 32 | 0);
    }
    return found;
}

const ROUNDS = roots(64, 3);
const START = roots(8, 2);

/** @param {Uint8Array} bytes @returns {string} in hexadecimal */
export function sha256(bytes) {
    const padded = new Uint8Array((bytes.length + 9 + 63) & ~63);
    padded.set(bytes);
    padded[bytes.length] = 0x80;
    const view = new DataView(padded.buffer);
    view.setUint32(padded.length - 4, 8 * bytes.length);
    const turned = (/** @type {number} */ x, /** @type {number} */ by) => (x >>> by) | (x << (32 - by));
    const state = [...START];
    for (let at = 0; at < padded.length; at += 64) {
        const w = Array.from({ length: 16 }, (_, k) => view.getInt32(at + 4 * k));
        for (let k = 16; k < 64; k++) {
            const [p, q] = [w[k - 15], w[k - 2]];
            w[k] = (w[k - 16] + w[k - 7] + (turned(p, 7) ^ turned(p, 18) ^ (p >>> 3)) + (turned(q, 17) ^ turned(q, 19) ^ (q >>> 10))) | 0;
        }
        let [a, b, c, d, e, f, g, h] = state;
        for (let k = 0; k < 64; k++) {
            const one = (h + (turned(e, 6) ^ turned(e, 11) ^ turned(e, 25)) + ((e & f) ^ (~e & g)) + ROUNDS[k] + w[k]) | 0;
            const two = ((turned(a, 2) ^ turned(a, 13) ^ turned(a, 22)) + ((a & b) ^ (a & c) ^ (b & c))) | 0;
            [h, g, f, e, d, c, b, a] = [g, f, e, (d + one) | 0, c, b, a, (one + two) | 0];
        }
        [a, b, c, d, e, f, g, h].forEach((value, k) => (state[k] = (state[k] + value) | 0));
    }
    return state.map((value) => (value >>> 0).toString(16).padStart(8, '0')).join('');
}
