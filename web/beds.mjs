/** Beds as the library writes them (specification 6.11), by their parts; and where two of them differ. */

/** @typedef {{places: number[], totals: {pair: [number, number], total: number}[]}} Bed the bobbin at each place, and the total of each pair of bobbins */

/** @param {Uint8Array} bytes of a bed of any number of bobbins @returns {Bed} */
export function readBed(bytes) {
    const bobbins = Math.sqrt(bytes.length);
    const view = new DataView(bytes.buffer, bytes.byteOffset, bytes.length);
    /** @type {Bed['totals']} */
    const totals = [];
    for (let p = 1; p <= bobbins; p++) {
        for (let q = p + 1; q <= bobbins; q++) totals.push({ pair: [p, q], total: view.getInt16(bobbins + 2 * totals.length) });
    }
    return { places: [...bytes.slice(0, bobbins)], totals };
}

/**
 * Where two beds of as many bobbins differ: what it is, in words, then what it is in the one and in the other.
 * @param {Bed} one @param {Bed} two @returns {[string, number, number][]}
 */
export function bedDifferences(one, two) {
    /** @type {[string, number, number][]} */
    const places = one.places.map((bobbin, k) => [`bobbin at place ${k + 1}`, bobbin, two.places[k]]);
    /** @type {[string, number, number][]} */
    const totals = one.totals.map(({ pair, total }, k) => [`total of bobbins ${pair[0]} and ${pair[1]}`, total, two.totals[k].total]);
    return [...places, ...totals].filter(([, left, right]) => left !== right);
}
