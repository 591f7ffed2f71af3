/**
 * The calls of the proved library as JavaScript, over its WebAssembly module. It runs in node and in a browser, without a package.
 *
 *     import { load } from './braid.mjs';
 *     const braid = await load(bytesOfBraidWasm);
 *     const table = braid.packTable(Uint8Array.of(1, 1)).bytes;
 *
 * Every answer is the library's own; docs/SPECIFICATION.md says what it means, by section. Images and plain forms are Uint8Array. An answer is an object with
 * `answered: true` and what the call tells; a refusal is an object with `answered: false`, its number, its place and its sentence. `raw` makes a call as C has
 * it.
 */

/** The sentences of refusals, by number: braid_text of the header. */
export const TEXTS = [
    'answered',
    "the table's bytes end too early",
    'a field of the table stands for no move, or a number of its plain form is out of range',
    'after the last field of the table comes a bit that is set, or a byte',
    'the bytes of a program or chain end too early, or a plain program has too many moves',
    'a field of a program or chain, a byte of a plain program, or a number in a text, stands for no move',
    'after the last field of a program or chain comes a bit that is set, or a byte',
    'there is a back move in a program where none may be',
    'the two sides of a relation have different weights',
    'a triple of the table breaks the cube rule',
    'the reversing met an open pair',
    'the allowance is used',
    'the workspace is too short',
    'the answer area is too short',
    undefined,
    "the table isn't the braid table of its number of moves",
    'the table has no mirror',
    'a triple of the mirror breaks the cube rule',
    "the numbers handed in aren't those of this reversing",
    'the text is no pattern',
    'the pattern means more than 4,095 moves',
    'growing the set met an open pair',
    'the set would have more than 256 words',
    'the tray has more than 64 logs',
    'the tray ends too early, or bytes follow it',
];

/**
 * What each call takes, in the order of C: images, then an allowance, further numbers of 64 bits, a workspace and an answer area.
 * @type {Record<string, {images: number, allowance?: boolean, numbers?: number, workspace?: boolean, answer?: boolean}>}
 */
export const CALLS = {
    reverse: { images: 2, allowance: true, workspace: true, answer: true },
    left_reverse: { images: 2, allowance: true, workspace: true, answer: true },
    enquire: { images: 2, allowance: true, workspace: true },
    commit: { images: 2, allowance: true, numbers: 3, workspace: true, answer: true },
    clear: { images: 1, allowance: true, workspace: true },
    mirror_clear: { images: 1, allowance: true, workspace: true },
    compare: { images: 3, allowance: true, workspace: true },
    compare_signed: { images: 3, allowance: true, workspace: true },
    chain: { images: 3, allowance: true, workspace: true, answer: true },
    remainder: { images: 3, allowance: true, workspace: true, answer: true },
    check: { images: 4, workspace: true },
    pack_table: { images: 1, answer: true },
    unpack_table: { images: 1, answer: true },
    pack_program: { images: 2, answer: true },
    unpack_program: { images: 2, answer: true },
    bed: { images: 2, numbers: 1, answer: true },
    ways: { images: 2, answer: true },
    import: { images: 2, answer: true },
    tray: { images: 3, allowance: true, workspace: true, answer: true },
};

/** The bytes of the longest forms (specification 5.10). */
const MOST = { table: 1942, plain: 3857, program: 2561, moves: 4095, bed: 289, tray: 192 };

/**
 * @typedef {{kind: 'none' | 'pair' | 'triple' | 'mirror' | 'set', moves: number[]}} Place
 * @typedef {{answered: false, refused: number, place: Place, text: string}} Refusal
 * @typedef {{allowance?: number, workspace?: number, answer?: number}} Limits
 * @typedef {{images: Uint8Array[], allowance?: number, numbers?: bigint[], workspace?: Uint8Array, answer?: Uint8Array}} Inputs
 * @typedef {{result: number, values: bigint[], images: Uint8Array[], workspace: Uint8Array, answer: Uint8Array}} Left
 */

/**
 * @param {number} result
 * @param {bigint[]} values
 * @returns {Refusal}
 */
function refusal(result, values) {
    const [kind, ...moves] = values.map(Number);
    const kinds = /** @type {const} */ (['none', 'pair', 'triple', 'mirror', 'set']);
    const count = [0, 2, 3, 3, 0][kind];
    return { answered: false, refused: result, place: { kind: kinds[kind], moves: moves.slice(0, count) }, text: TEXTS[result] ?? '' };
}

export class Braid {
    /** @param {WebAssembly.Instance} instance */
    constructor(instance) {
        /** @type {any} */
        this.exports = instance.exports;
    }

    /**
     * Makes a call as C has it, on copies of what is handed in. No place is at address 0, and none shares memory with another.
     * @param {string} name
     * @param {Inputs} inputs
     * @returns {Left}
     */
    raw(name, { images, allowance = 0, numbers = [], workspace = new Uint8Array(), answer = new Uint8Array() }) {
        const call = CALLS[name];
        if (!call || images.length !== call.images) throw new TypeError(`${name} is no call, or takes other images`);
        const lent = [...images, ...(call.workspace ? [workspace] : []), ...(call.answer ? [answer] : [])];
        let end = this.exports.__heap_base.value;
        const lend = (/** @type {number} */ length) => {
            const at = (end + 7) & ~7;
            end = at + Math.max(length, 1);
            return at;
        };
        const places = lent.map((bytes) => lend(bytes.length));
        const told = lend(32);
        const missing = end - this.exports.memory.buffer.byteLength;
        if (missing > 0) this.exports.memory.grow(Math.ceil(missing / 65536));
        const memory = new Uint8Array(this.exports.memory.buffer);
        lent.forEach((bytes, k) => memory.set(bytes, places[k]));
        const pair = (/** @type {number} */ k) => [places[k], BigInt(lent[k].length)];
        const parameters = images.flatMap((_, k) => pair(k));
        if (call.allowance) parameters.push(allowance);
        parameters.push(...numbers);
        for (let k = images.length; k < lent.length; k++) parameters.push(...pair(k));
        const result = this.exports[`braid_${name}`](...parameters, told) & 255;
        const after = this.exports.memory.buffer;
        const copies = lent.map((bytes, k) => new Uint8Array(after, places[k], bytes.length).slice());
        const area = copies[copies.length - 1];
        return {
            result,
            values: [...new BigUint64Array(after, told, 4)],
            images: copies.slice(0, images.length),
            workspace: call.workspace ? copies[images.length] : new Uint8Array(),
            answer: call.answer ? area : new Uint8Array(),
        };
    }

    /**
     * A call with areas that are lent here: what it answers, or the refusal.
     * @template T
     * @param {string} name
     * @param {Uint8Array[]} images
     * @param {Limits & {numbers?: bigint[]}} limits
     * @param {number} most the answer area where none is named
     * @param {(values: number[], answer: Uint8Array) => T} answered
     * @returns {({answered: true} & T) | Refusal}
     */
    made(name, images, { allowance = 65535, workspace = 32768, answer, numbers = [] }, most, answered) {
        const inputs = { images, allowance, numbers, workspace: new Uint8Array(workspace), answer: new Uint8Array(answer ?? most) };
        const left = this.raw(name, inputs);
        if (left.result !== 0) return refusal(left.result, left.values);
        return { answered: true, ...answered(left.values.map(Number), left.answer) };
    }

    /** @param {Uint8Array} table @param {Uint8Array} program @param {Limits} [limits] */
    reverse(table, program, limits = {}) {
        return this.made('reverse', [table, program], limits, limits.workspace ?? 32768, fraction);
    }

    /** From the finished end. @param {Uint8Array} table @param {Uint8Array} program @param {Limits} [limits] */
    leftReverse(table, program, limits = {}) {
        return this.made('left_reverse', [table, program], limits, limits.workspace ?? 32768, fraction);
    }

    /** @param {Uint8Array} table @param {Uint8Array} program @param {Limits} [limits] */
    enquire(table, program, limits = {}) {
        return this.made('enquire', [table, program], limits, 0, ([numerator, denominator, steps]) => ({ numerator, denominator, steps }));
    }

    /**
     * @param {Uint8Array} table @param {Uint8Array} program
     * @param {{numerator: number, denominator: number, steps: number}} sizes @param {Limits} [limits]
     */
    commit(table, program, { numerator, denominator, steps }, limits = {}) {
        const numbers = [numerator, denominator, steps].map(BigInt);
        return this.made('commit', [table, program], { ...limits, numbers }, limits.workspace ?? 32768, fraction);
    }

    /** @param {Uint8Array} table @param {Limits} [limits] */
    clear(table, limits = {}) {
        return this.made('clear', [table], limits, 0, () => ({}));
    }

    /** @param {Uint8Array} table @param {Limits} [limits] */
    mirrorClear(table, limits = {}) {
        return this.made('mirror_clear', [table], limits, 0, () => ({}));
    }

    /** @param {Uint8Array} table @param {Uint8Array} first @param {Uint8Array} second @param {Limits} [limits] */
    compare(table, first, second, limits = {}) {
        return this.made('compare', [table, first, second], limits, 0, ([different, steps]) => ({ same: different === 0, steps }));
    }

    /** @param {Uint8Array} table @param {Uint8Array} first @param {Uint8Array} second @param {Limits} [limits] */
    compareSigned(table, first, second, limits = {}) {
        return this.made('compare_signed', [table, first, second], limits, 0, ([different, one, two]) => ({ same: different === 0, steps: [one, two] }));
    }

    /** @param {Uint8Array} table @param {Uint8Array} first @param {Uint8Array} second @param {Limits} [limits] */
    chain(table, first, second, limits = {}) {
        const bits = 32 - Math.clz32((table[0] ?? 0) >> 4);
        const most = Math.ceil((16 + (limits.allowance ?? 65535) * (15 + 2 * bits)) / 8);
        return this.made('chain', [table, first, second], limits, most, ([different, steps, entries, bytes], answer) =>
            different ? { same: false, steps } : { same: true, steps, entries, bytes: answer.slice(0, bytes) },
        );
    }

    /** @param {Uint8Array} table @param {Uint8Array} done @param {Uint8Array} pattern @param {Limits} [limits] */
    remainder(table, done, pattern, limits = {}) {
        return this.made('remainder', [table, done, pattern], limits, limits.workspace ?? 32768, ([none, count, steps], answer) =>
            none ? { moves: undefined, steps } : { moves: answer.slice(0, count), steps },
        );
    }

    /** @param {Uint8Array} table @param {Uint8Array} first @param {Uint8Array} second @param {Uint8Array} chain @param {Limits} [limits] */
    check(table, first, second, chain, limits = {}) {
        return this.made('check', [table, first, second, chain], limits, 0, ([passage, entry]) =>
            passage === 0 ? { passage: 'joins' } : passage === 1 ? { passage: 'breaks', entry } : { passage: 'ends elsewhere' },
        );
    }

    /** @param {Uint8Array} plain @param {Limits} [limits] */
    packTable(plain, limits = {}) {
        return this.made('pack_table', [plain], limits, MOST.table, written);
    }

    /** @param {Uint8Array} table @param {Limits} [limits] */
    unpackTable(table, limits = {}) {
        return this.made('unpack_table', [table], limits, MOST.plain, written);
    }

    /** @param {Uint8Array} table @param {Uint8Array} plain @param {Limits} [limits] */
    packProgram(table, plain, limits = {}) {
        return this.made('pack_program', [table, plain], limits, MOST.program, written);
    }

    /** @param {Uint8Array} table @param {Uint8Array} program @param {Limits} [limits] */
    unpackProgram(table, program, limits = {}) {
        return this.made('unpack_program', [table, program], limits, MOST.moves, written);
    }

    /** After so many moves, or all. @param {Uint8Array} table @param {Uint8Array} program @param {bigint} [moves] @param {Limits} [limits] */
    bed(table, program, moves = 2n ** 64n - 1n, limits = {}) {
        return this.made('bed', [table, program], { ...limits, numbers: [moves] }, MOST.bed, written);
    }

    /** Every word, in an area of 1 MiB unless the limits say otherwise. @param {Uint8Array} table @param {Uint8Array} program @param {Limits} [limits] */
    ways(table, program, limits = {}) {
        return this.made('ways', [table, program], limits, 1 << 20, ([count, bytes], answer) => {
            const words = [];
            for (let at = 0; at < bytes; ) {
                const end = answer.indexOf(0, at);
                words.push(answer.slice(at, end));
                at = end + 1;
            }
            return { count, words };
        });
    }

    /** @param {Uint8Array} table @param {Uint8Array} text @param {Limits} [limits] */
    import(table, text, limits = {}) {
        return this.made('import', [table, text], limits, MOST.moves, written);
    }

    /** @param {Uint8Array} table @param {Uint8Array} tray @param {Uint8Array} pattern @param {Limits} [limits] */
    tray(table, tray, pattern, limits = {}) {
        return this.made('tray', [table, tray, pattern], limits, MOST.tray, ([count], answer) => {
            const logs = [];
            for (let at = 0; at < 3 * count; at += 3) {
                const [said, high, low] = answer.slice(at, at + 3);
                logs.push(said > 1 ? { refused: said, text: TEXTS[said] } : { same: said === 0, steps: 256 * high + low });
            }
            return { logs };
        });
    }
}

/** @param {number[]} values @param {Uint8Array} answer */
function fraction([n, d, steps], answer) {
    return { numerator: answer.slice(0, n), denominator: answer.slice(n, n + d), steps };
}

/** @param {number[]} values @param {Uint8Array} answer */
function written([length], answer) {
    return { bytes: answer.slice(0, length) };
}

/**
 * The tray of program images (specification 5.11), or undefined where they are too many or one is too long.
 * @param {Uint8Array[]} logs
 */
export function trayOf(logs) {
    if (logs.length > 64 || logs.some((log) => log.length > 65535)) return undefined;
    return Uint8Array.from([logs.length, ...logs.flatMap((log) => [log.length >> 8, log.length & 255, ...log])]);
}

/**
 * The library from the bytes of braid.wasm.
 * @param {BufferSource} bytes
 */
export async function load(bytes) {
    const { instance } = await WebAssembly.instantiate(bytes, {});
    return new Braid(instance);
}
