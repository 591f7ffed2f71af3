/** What all views of the page share: its state, the turns of questions, and how words are put. */

/** @typedef {{image: Uint8Array, plain: Uint8Array}} Table */
/** @typedef {{image: Uint8Array, word: number[], fault?: undefined}} Program */
/** @typedef {{fault: string, image?: undefined, word?: undefined}} Fault */

export const $ = (/** @type {string} */ id) => /** @type {any} */ (document.getElementById(id));
export const encoded = (/** @type {string} */ text) => new TextEncoder().encode(text);
export const decoded = (/** @type {Uint8Array} */ bytes) => new TextDecoder().decode(bytes);
export const moves = (/** @type {Uint8Array} */ plain) => Array.from(plain, (byte) => (byte > 128 ? 128 - byte : byte));
export const plainOf = (/** @type {number[]} */ word) => Uint8Array.from(word, (move) => (move < 0 ? 128 - move : move));
export const number = (/** @type {number} */ count) => count.toLocaleString('en');
export const counted = (/** @type {number} */ count, /** @type {string} */ what) => `${number(count)} ${what}${count === 1 ? '' : 's'}`;
export const shown = (/** @type {number[]} */ word) => (word.length === 0 ? 'the empty word' : word.join(' '));
export const short = (/** @type {string} */ text, most = 240) => (text.length > most ? `${text.slice(0, most)}..` : text);

/**
 * The table that was read, the view that is seen, and the limits of every call. refresh asks again for what is seen, once something has changed; the page,
 * which knows the views, puts it here.
 * @type {{table: Table | undefined, view: string, limits: {allowance: number, workspace: number}, refresh: (checks?: boolean) => Promise<void>}}
 */
export const state = { table: undefined, view: 'table', limits: { allowance: 65535, workspace: 32768 }, refresh: async () => undefined };
/** Turns of each part: an answer that comes after a newer question is dropped. @type {Record<string, number>} */
const turns = {};
export const turn = (/** @type {string} */ part) => {
    turns[part] = (turns[part] ?? 0) + 1;
    const mine = turns[part];
    return () => turns[part] === mine;
};
/** Where the answers of a part stand. @type {Record<string, string[]>} */
export const answers = {
    checks: ['checks'],
    compare: ['verdict', 'printed', 'detail'],
    tray: ['tray-table', 'tray-counts'],
    reverse: ['fraction', 'steps', 'remainder', 'ways'],
};
/** A new question to a part: answers to older ones are hidden, and those that still come are dropped. @param {string} part */
export const ask = (part) => {
    for (const id of answers[part]) $(id).classList.add('asked');
    return turn(part);
};
export const put = (/** @type {string} */ id, /** @type {string} */ markup) => {
    $(id).innerHTML = markup;
    $(id).classList.remove('asked');
};

/** The case stands in the address, so that it can be kept and sent; a page that is opened anew shows the same view. @param {string} address */
export function keepAddress(address) {
    if (location.hash !== `#${address}`) history.replaceState({ view: state.view }, '', `#${address}`);
}

export function save(/** @type {string} */ name, /** @type {any} */ content, type = 'application/octet-stream') {
    const link = document.createElement('a');
    link.href = URL.createObjectURL(new Blob([content], { type }));
    link.download = name;
    link.click();
    setTimeout(() => URL.revokeObjectURL(link.href), 60000);
}

/** @type {Record<string, any>} */
const timers = {};

/** Does something once the typing rests. @param {string} part @param {() => any} action */
export function later(part, action) {
    clearTimeout(timers[part]);
    timers[part] = setTimeout(action, 250);
}
