/** The words of a reversing, step by step, for showing: the page shows them only where the last one agrees with the library's answer. */

/** @typedef {import('./tables.mjs').tableParts} tableParts */
/** @typedef {{word: number[], at: number | undefined}} Shown the word, and where its site begins */

/** C(a,b), or undefined where the pair is open. @param {ReturnType<tableParts>} table @param {number} a @param {number} b */
function completion(table, a, b) {
    if (a === b) return [];
    const relation = table.relations.find(([one, two]) => (one[0] === a && two[0] === b) || (one[0] === b && two[0] === a));
    return relation && (relation[0][0] === a ? relation[0] : relation[1]).slice(1);
}

/** U and V of the relation whose sides are U a and V b. @param {ReturnType<tableParts>} table @param {number} a @param {number} b */
function before(table, a, b) {
    if (a === b) return [[], []];
    for (const [one, two] of table.relations) {
        const [p, q] = [one[one.length - 1], two[two.length - 1]];
        if (p === a && q === b) return [one.slice(0, -1), two.slice(0, -1)];
        if (q === a && p === b) return [two.slice(0, -1), one.slice(0, -1)];
    }
    return undefined;
}

/** @param {number[]} word */
export const undoing = (word) => word.map((move) => -move).reverse();

/** Where the next step is taken: the first site, or the last one from the finished end. @param {number[]} word @param {boolean} left */
function site(word, left) {
    if (!left) {
        for (let k = 0; k + 1 < word.length; k++) if (word[k] < 0 && word[k + 1] > 0) return k;
    } else {
        for (let k = word.length - 2; k >= 0; k--) if (word[k] > 0 && word[k + 1] < 0) return k;
    }
    return undefined;
}

/**
 * The words from a program on, up to so many steps; the last one is finished, meets an open pair, or is where the steps end.
 * @param {ReturnType<tableParts>} table
 * @param {number[]} program
 * @param {boolean} left from the finished end
 * @param {number} most
 * @returns {Shown[]}
 */
export function steps(table, program, left, most) {
    const shown = [];
    let word = program;
    for (;;) {
        const at = site(word, left);
        shown.push({ word, at });
        if (at === undefined || shown.length > most) return shown;
        const [x, y] = [Math.abs(word[at]), Math.abs(word[at + 1])];
        const put = left ? before(table, x, y) : [completion(table, x, y), completion(table, y, x)];
        if (!put || !put[0] || !put[1]) return shown;
        const between = left ? [...undoing(put[0]), ...put[1]] : [...put[0], ...undoing(put[1])];
        word = [...word.slice(0, at), ...between, ...word.slice(at + 2)];
    }
}

/**
 * The swap of an entry: the word after it, and how many moves were in its place.
 * @param {ReturnType<tableParts>} table @param {number[]} word @param {number[]} entry
 */
export function swapped(table, word, [offset, a, b]) {
    const [there, back] = [completion(table, a, b), completion(table, b, a)];
    if (!there || !back) return undefined;
    return { word: [...word.slice(0, offset), b, ...back, ...word.slice(offset + 1 + there.length)], length: 1 + there.length };
}

/** The entries of a chain image under n moves (specification 5.6). @param {Uint8Array} image @param {number} n */
export function entriesOf(image, n) {
    let bit = 0;
    const field = (/** @type {number} */ width) => {
        let value = 0;
        for (; width > 0; width--, bit++) value = 2 * value + (((image[bit >> 3] ?? 0) >> (7 - (bit & 7))) & 1);
        return value;
    };
    const width = 32 - Math.clz32(n - 1);
    return Array.from({ length: field(16) }, () => [field(15), field(width) + 1, field(width) + 1]);
}
