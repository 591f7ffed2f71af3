/** Programs and files as they are given to the page: read, or what is wrong with them. */
import { library, refusedText } from './calling.mjs';
import { $, decoded, encoded, moves, number, state, turn } from './state.mjs';

/** @typedef {import('./state.mjs').Table} Table */
/** @typedef {import('./state.mjs').Program} Program */
/** @typedef {import('./state.mjs').Fault} Fault */

// FILES

/** The longest text that the page reads. */
export const LONGEST_TEXT = 1 << 18;
/** No image has as many bytes, so that what lies behind them changes no refusal. */
const LONGEST_IMAGE = 65535;

/** @typedef {{bytes: Uint8Array, text: boolean}} Content */
/** What stands in a file: text where its name ends in .txt, as the tool has it. @param {File} file @returns {Promise<Content | Fault>} */
export async function readFile(file) {
    const text = file.name.endsWith('.txt');
    if (text && file.size > LONGEST_TEXT) return { fault: `the text has ${number(file.size)} bytes, and the page reads at most ${number(LONGEST_TEXT)}` };
    try {
        return { bytes: new Uint8Array(await file.slice(0, text ? LONGEST_TEXT : LONGEST_IMAGE).arrayBuffer()), text };
    } catch {
        return { fault: 'it cannot be read: a folder, or a file that was taken away' };
    }
}

/** Takes one line end off the end, as the tool does. @param {Uint8Array} text */
export function withoutLineEnd(text) {
    if (text[text.length - 1] !== 10) return text;
    return text.subarray(0, text.length - (text[text.length - 2] === 13 ? 2 : 1));
}

/** What became of a file, at its place. @param {string} id @param {string} said @param {boolean} [bad] */
export function note(id, said, bad = false) {
    $(id).textContent = said;
    $(id).classList.toggle('faults', bad);
}

// PROGRAMS

/** The image and the moves of a text in the mills' notation under a table, or what is wrong. @param {Uint8Array} text @param {Table | undefined} own */
export async function programOf(text, own) {
    if (!own) return { fault: 'there is no table: mend it in the view Table' };
    if (text.length > LONGEST_TEXT) return { fault: `the text has ${number(text.length)} bytes, and the page reads at most ${number(LONGEST_TEXT)}` };
    const imported = await library.call('import', own.image, text);
    if (!imported.answered) {
        const where = imported.refused ? await library.call('explainText', own.image, text, imported) : '';
        return { fault: refusedText(imported) + (typeof where === 'string' && where ? `\n${where}` : '') };
    }
    const packed = await library.call('packProgram', own.image, imported.bytes);
    return packed.answered ? { image: packed.bytes, word: moves(imported.bytes) } : { fault: refusedText(packed) };
}

/** Takes a program file into a field: text by its name, else an image. @param {File} file @param {string} field */
export async function takeProgram(file, field) {
    const own = state.table;
    const current = turn(`${field}-file`);
    const read = await readFile(file);
    const wrong = (/** @type {string} */ what) => current() && note(`${field}-note`, `${file.name}: ${what}. The program before it stays.`, true);
    if ('fault' in read) return wrong(read.fault);
    if (!own) return wrong('there is no table to read it under: mend it in the view Table');
    let text = '';
    if (read.text) {
        const program = await programOf(withoutLineEnd(read.bytes), own);
        if (program.fault) return wrong(program.fault);
        text = decoded(withoutLineEnd(read.bytes));
    } else {
        const unpacked = await library.call('unpackProgram', own.image, read.bytes);
        if (!unpacked.answered) return wrong(refusedText(unpacked));
        text = moves(unpacked.bytes).join(' ');
    }
    if (!current()) return undefined;
    $(field).value = text;
    note(`${field}-note`, `from ${file.name}`);
    return state.refresh();
}

/** Both programs of Compare under a table; faults stand at their fields. @param {Table | undefined} own @param {() => boolean} current */
export async function bothPrograms(own, current) {
    const read = [];
    for (const field of ['first', 'second']) {
        const program = await programOf(encoded($(field).value), own);
        if (!current()) return undefined;
        $(`${field}-fault`).textContent = program.fault ?? '';
        $(field).setAttribute('aria-invalid', String(program.fault !== undefined));
        read.push(program);
    }
    return read.some((program) => program.fault) ? undefined : /** @type {Program[]} */ (read);
}

/** Why there are no two programs. */
export const missing = () =>
    state.table ? 'a program of the view Compare has a fault, which is told at its field' : 'there is no table: mend it in the view Table';
