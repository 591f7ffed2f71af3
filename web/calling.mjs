/** The library in its worker, called from the page; and its refusals in words. */
import { $, state } from './state.mjs';

/** @typedef {import('./state.mjs').Table} Table */

const wasm = Uint8Array.from(atob($('wasm').textContent), (character) => character.charCodeAt(0));
const code = URL.createObjectURL(new Blob([$('worker').textContent], { type: 'text/javascript' }));
/** What a call that was stopped tells: no refusal of the library. */
const STOPPED = { answered: false, refused: 0, place: { kind: 'none', moves: [] }, text: 'stopped: there is no answer. Change something to ask again' };

class Library {
    constructor() {
        this.waiting = new Map();
        this.next = 0;
        this.start();
    }

    start() {
        this.worker = new Worker(code);
        this.worker.onmessage = ({ data }) => {
            this.waiting.get(data.id)?.(data.answer);
            this.waiting.delete(data.id);
            working();
        };
        this.worker.postMessage({ wasm });
    }

    /** What a call answers. @param {string} name @param {...any} parameters @returns {Promise<any>} */
    call(name, ...parameters) {
        const id = this.next++;
        this.worker?.postMessage({ id, name, parameters });
        return new Promise((resolve) => {
            this.waiting.set(id, resolve);
            setTimeout(working, 200);
        });
    }

    /** Ends the worker and starts another; the state is the page's. */
    stop() {
        this.worker?.terminate();
        const stopped = [...this.waiting.values()];
        this.waiting.clear();
        this.start();
        for (const resolve of stopped) resolve(STOPPED);
        working();
    }
}

const working = () => {
    $('working').hidden = library.waiting.size === 0;
};
export const library = new Library();

/** A refusal as the tool says it: its number, its places, its sentence. @param {any} refusal */
export const refusedText = (refusal) => (refusal.refused ? `refused ${[refusal.refused, ...refusal.place.moves].join(' ')}: ${refusal.text}` : refusal.text);

/** A refusal, and what stands at its place. @param {any} refusal @param {Table} own @param {{call: string, program: Uint8Array}} [reversing] */
export async function explained(refusal, own, reversing) {
    const more = refusal.refused ? await library.call('explain', own.image, state.limits, refusal, reversing) : '';
    return typeof more === 'string' && more ? `${refusedText(refusal)}\n${more}` : refusedText(refusal);
}
