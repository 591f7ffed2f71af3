/** The library in a worker of its own, so that the page never freezes: the first message has the module's bytes, each other one a call. */
import { load } from './braid.mjs';
import { explain, explainText } from './explaining.mjs';

/** What helps beside a refusal takes many calls, and so is found here. @type {Record<string, Function>} */
const explaining = { explain, explainText };
/** @type {Promise<any>} */
let library;
self.onmessage = async ({ data }) => {
    if (data.wasm) {
        library = load(data.wasm);
        // Where it cannot be loaded, each call tells so.
        library.catch(() => undefined);
        return;
    }
    try {
        const braid = await library;
        const { id, name, parameters } = data;
        self.postMessage({ id, answer: name in explaining ? explaining[name](braid, ...parameters) : braid[name](...parameters) });
    } catch (what) {
        // No call of the library ends so: it is memory that cannot be had, or a browser without WebAssembly.
        const text = `the library could not be run here (${what}): try a smaller workspace, or another browser`;
        self.postMessage({ id: data.id, answer: { answered: false, refused: 0, place: { kind: 'none', moves: [] }, text } });
    }
};
