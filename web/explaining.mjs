/**
 * What helps a person beside a refusal, in the words of the tool (tool/src/explain.rs): where it is, and what stands there. All of it is found by calls of the
 * library, and decides nothing. It runs in the worker, since it may take many calls.
 */
import { tableParts } from './tables.mjs';

/** @typedef {import('./braid.mjs').Braid} Braid */
/** @typedef {import('./braid.mjs').Refusal} Refusal */
/** @typedef {import('./braid.mjs').Limits} Limits */

const NO_PATTERN = 19;
const TOO_MANY_MOVES = 20;
/** The largest allowance. */
const LARGEST_ALLOWANCE = 65535;

/**
 * What import says of the beginning of a text, once what is open in it is closed: undefined where it cannot go on to a pattern.
 * @param {Braid} braid @param {Uint8Array} table @param {Uint8Array} beginning
 */
function begun(braid, table, beginning) {
    for (const ending of ['', '1']) {
        for (let open = 0; open <= 8; open++) {
            const closing = new TextEncoder().encode(ending + ')'.repeat(open));
            const text = new Uint8Array(beginning.length + closing.length);
            text.set(beginning);
            text.set(closing, beginning.length);
            const told = braid.import(table, text);
            if (told.answered || told.refused !== NO_PATTERN) return told;
        }
    }
    return undefined;
}

/** The first byte of a text at which no pattern can go on. @param {Braid} braid @param {Uint8Array} table @param {Uint8Array} text */
function stuck(braid, table, text) {
    // Every beginning of one that can go on can, too.
    let [goes, ends] = [0, text.length + 1];
    while (ends - goes > 1) {
        const middle = (goes + ends) >> 1;
        if (begun(braid, table, text.subarray(0, middle))) goes = middle;
        else ends = middle;
    }
    return goes;
}

/** The byte of a text with which its moves pass 4,095. @param {Braid} braid @param {Uint8Array} table @param {Uint8Array} text */
function passing(braid, table, text) {
    // A beginning that passes them is sought between one that does not and one that does.
    let [less, more] = [0, text.length];
    while (more - less > 1) {
        const middle = (less + more) >> 1;
        const told = begun(braid, table, text.subarray(0, middle));
        if (told && !told.answered && told.refused === TOO_MANY_MOVES) more = middle;
        else less = middle;
    }
    return Math.max(more - 1, 0);
}

/** The first number of a text that is no count and is above the moves of a table. @param {string} text @param {number} moves */
function highNumber(text, moves) {
    for (const found of text.matchAll(/[0-9]+/g)) {
        if (Number(found[0]) > moves && text[found.index - 1] !== '^') return { at: found.index, number: Number(found[0]) };
    }
    return undefined;
}

/**
 * Of a text that import refuses: the line and column where there is one, and what stands there.
 * @param {Braid} braid @param {Uint8Array} table @param {Uint8Array} text @param {Refusal} refusal
 */
export function explainText(braid, table, text, refusal) {
    // A character for each byte, so that columns are those of the bytes.
    const characters = Array.from(text, (byte) => String.fromCharCode(byte)).join('');
    const moves = (table[0] >> 4) + 1;
    const place = (/** @type {number} */ at, /** @type {string} */ what) => {
        const lines = characters.slice(0, at).split('\n');
        return `line ${lines.length}, column ${lines[lines.length - 1].length + 1}: ${what}`;
    };
    if (refusal.refused === NO_PATTERN) {
        const at = stuck(braid, table, text);
        const shown = text[at] > 32 && text[at] < 127 ? `'${characters[at]}'` : text[at] === 32 ? 'a space' : `the byte ${text[at]}`;
        return place(at, at < text.length ? `${shown} cannot stand here` : 'the text ends before the pattern does');
    }
    if (refusal.refused === TOO_MANY_MOVES) return place(passing(braid, table, text), 'with what stands here they are passed');
    const high = refusal.refused === 5 && highNumber(characters, moves);
    return high ? place(high.at, `the table has ${moves} ${moves === 1 ? 'move' : 'moves'}, and ${high.number} is none`) : '';
}

/** u\v by a call of reverse, or undefined. @param {Braid} braid @param {Uint8Array} table @param {number[]} u @param {number[]} v @param {Limits} limits */
function complement(braid, table, u, v, limits) {
    const packed = braid.packProgram(table, Uint8Array.from([...[...u].reverse().map((move) => 128 + move), ...v]));
    const told = packed.answered ? braid.reverse(table, packed.bytes, limits) : packed;
    return told.answered ? [...told.numerator] : undefined;
}

/** (a\b)\(a\c), as text. @param {Braid} braid @param {Uint8Array} table @param {number[]} triple @param {Limits} limits */
function cubeSide(braid, table, [a, b, c], limits) {
    const [one, two] = [complement(braid, table, [a], [b], limits), complement(braid, table, [a], [c], limits)];
    const side = one && two && complement(braid, table, one, two, limits);
    return side ? side.join(' ') || 'the empty word' : 'undefined';
}

/**
 * The least allowance at which a reversing meets its open pair: the steps before it.
 * @param {Braid} braid @param {'reverse' | 'leftReverse'} call @param {Uint8Array} table @param {Uint8Array} program @param {Limits} limits
 */
function stepsBefore(braid, call, table, program, limits) {
    let [less, enough] = [-1, limits.allowance ?? LARGEST_ALLOWANCE];
    while (enough - less > 1) {
        const middle = (less + enough) >> 1;
        const told = braid[call](table, program, { ...limits, allowance: middle });
        if (!told.answered && told.refused === 10) enough = middle;
        else less = middle;
    }
    return enough;
}

/**
 * Of a refusal of a call with a table: what stands at its place, and what may help. '' where the refusal's own sentence says all.
 * @param {Braid} braid @param {Uint8Array} table @param {Limits} limits @param {Refusal} refusal
 * @param {{call: 'reverse' | 'leftReverse', program: Uint8Array}} [reversing] what 10 is of
 */
export function explain(braid, table, limits, refusal, reversing) {
    const { refused, place } = refusal;
    const [a, b, c] = place.moves;
    const unpacked = braid.unpackTable(table);
    const parts = unpacked.answered ? tableParts(unpacked.bytes) : undefined;
    const relation = parts?.relations.find(([one, two]) => one[0] === a && two[0] === b);
    const weigh = (/** @type {number[]} */ side) => side.reduce((sum, move) => sum + (parts?.weights[move - 1] ?? 0), 0);
    if (refused === 8 && relation) return relation.map((side) => `${side.join(' ')} weighs ${weigh(side)}`).join(', ');
    if (refused === 9) {
        const [left, right] = [cubeSide(braid, table, [a, b, c], limits), cubeSide(braid, table, [b, a, c], limits)];
        return `the triple ${a} ${b} ${c}: (${a}\\${b})\\(${a}\\${c}) is ${left}, (${b}\\${a})\\(${b}\\${c}) is ${right}`;
    }
    if (refused === 10 && reversing) {
        const steps = stepsBefore(braid, reversing.call, table, reversing.program, limits);
        const after = `is met after ${steps} ${steps === 1 ? 'step' : 'steps'}`;
        return reversing.call === 'leftReverse'
            ? `${b} -${a} ${after}, and no relation has sides that end in ${a} and ${b}`
            : `-${a} ${b} ${after}, and the pair ${a}, ${b} has no relation`;
    }
    if (refused === 16 && relation) return `the relation ${relation[0].join(' ')} = ${relation[1].join(' ')} offends`;
    if (refused === 21) return `the pair ${a}, ${b} has no relation`;
    const under = {
        triple: `while the triple ${a} ${b} ${c} of the table was checked`,
        mirror: `the triple ${a} ${b} ${c} of the mirror`,
        set: 'while the set of words grew that decides programs with back moves',
        pair: '',
        none: '',
    }[place.kind];
    const short = refused === 11 ? 'allowance' : refused === 12 ? 'workspace' : undefined;
    const largest = refused === 11 && (limits.allowance ?? LARGEST_ALLOWANCE) >= LARGEST_ALLOWANCE;
    const larger = short && (largest ? 'no allowance is larger: the question stays open' : `with a larger ${short} the outcome may be another`);
    return [under, larger].filter(Boolean).join('; ');
}
