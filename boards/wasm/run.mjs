/**
 * Runs the conformity vectors, or the stream of random calls, on the library as WebAssembly.
 * Usage: node boards/wasm/run.mjs MODULE.wasm vectors FILE | node boards/wasm/run.mjs MODULE.wasm stream SEED CALLS
 */
import { readFileSync } from 'node:fs';

const [module, what, ...rest] = process.argv.slice(2);
if (!module || !((what === 'vectors' && rest.length === 1) || (what === 'stream' && rest.length === 2))) {
    console.error('usage: node boards/wasm/run.mjs MODULE.wasm vectors FILE | stream SEED CALLS');
    process.exit(2);
}
const file = what === 'vectors' ? readFileSync(rest[0]) : new Uint8Array();
let at = 0;
/** @type {number[]} */
let written = [];
const flush = () => {
    process.stdout.write(Buffer.from(written));
    written = [];
};
const env = {
    next_byte: () => (at < file.length ? file[at++] : -1),
    /** @param {number} byte */
    put_byte: (byte) => {
        written.push(byte);
        if (written.length >= 4096) flush();
    },
};
const { instance } = await WebAssembly.instantiate(readFileSync(module), { env });
/** @type {any} */
const calls = instance.exports;
const status = what === 'vectors' ? calls.vectors() : calls.stream(BigInt(rest[0]), BigInt(rest[1]));
flush();
process.exitCode = status;
