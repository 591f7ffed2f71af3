/** The view Table: a table as text, its errors at their lines, and what it passes. */
import { explained, library, refusedText } from './calling.mjs';
import { escaped } from './drawing.mjs';
import { LONGEST_TEXT, note, readFile } from './programs.mjs';
import { sha256 } from './sha256.mjs';
import { $, ask, decoded, encoded, later, number, put, save, short, state, turn } from './state.mjs';
import { BUILTINS, readTable, tableText } from './tables.mjs';

/** @param {{line: number, column: number, what: string}[]} faults */
function showFaults(faults) {
    const lines = $('table-text').value.split('\n');
    const told = new Map(faults.map((fault) => [fault.line, fault]).reverse());
    const shownLines = lines.slice(0, 2000);
    $('table-lines').innerHTML = shownLines.map((_, k) => (told.has(k + 1) ? `<span class="bad">${k + 1}</span>` : k + 1)).join('\n');
    const mark = (/** @type {string} */ line, /** @type {number} */ k) => {
        const fault = told.get(k + 1);
        return escaped(fault ? short(line, 1000) : '') + (fault ? `<span>${escaped(short(fault.what))}</span>` : '');
    };
    $('table-marks').innerHTML = shownLines.map(mark).join('\n');
    $('table-text').setAttribute('aria-invalid', String(faults.length > 0));
    const at = (/** @type {any} */ { line, column }) =>
        `<button type="button" class="at" data-line="${line}" data-column="${column}">line ${line}, column ${column}</button>`;
    const item = (/** @type {any} */ fault) => `<li>${at(fault)}: ${escaped(short(fault.what))}</li>`;
    const more = faults.length > 20 ? `<li>and ${number(faults.length - 20)} more</li>` : '';
    $('table-faults').innerHTML = faults.slice(0, 20).map(item).join('') + more;
    scrolled();
}

/** What stands beside and over the text goes with it. */
function scrolled() {
    const { scrollTop, scrollLeft } = $('table-text');
    Object.assign($('table-marks'), { scrollTop, scrollLeft });
    $('table-lines').scrollTop = scrollTop;
}

/** Puts the cursor where an error is; its column counts bytes. @param {number} line @param {number} column */
function goTo(line, column) {
    const lines = $('table-text').value.split('\n');
    const start = lines.slice(0, line - 1).join('\n').length + (line > 1 ? 1 : 0);
    const at = start + decoded(encoded(lines[line - 1] ?? '').subarray(0, column - 1)).length;
    $('table-text').focus();
    $('table-text').setSelectionRange(at, at);
}

async function readTableText() {
    const current = turn('table');
    ask('checks');
    ask('compare');
    const text = $('table-text').value;
    const known = BUILTINS.findIndex((builtin) => builtin.text === text);
    $('builtin').value = known < 0 ? '' : String(known);
    const long = { line: 1, column: 1, what: `the text has more than ${number(LONGEST_TEXT)} bytes, which is more than the page reads` };
    const { plain, faults } = text.length > LONGEST_TEXT ? { plain: undefined, faults: [long] } : readTable(encoded(text));
    showFaults(faults ?? []);
    state.table = undefined;
    if (plain) {
        const packed = await library.call('packTable', plain);
        if (!current()) return;
        if (packed.answered) state.table = { image: packed.bytes, plain };
        else showFaults([{ line: 1, column: 1, what: refusedText(packed) }]);
    }
    $('save-image').disabled = $('save-text').disabled = !state.table;
    $('digest').textContent = state.table ? `Table image SHA-256 ${sha256(state.table.image).slice(0, 16)}.` : '';
    await state.refresh(true);
}

export async function showChecks() {
    const own = state.table;
    const current = ask('checks');
    if (!own) return put('checks', '<dd>The table is not read yet: its errors stand at their lines.</dd>');
    /** @type {[string, boolean, string][]} */
    const rows = [];
    const row = (/** @type {string} */ name, /** @type {boolean} */ good, /** @type {string} */ said) => {
        rows.push([name, good, said]);
        if (!current()) return false;
        put('checks', rows.map(([name, good, said]) => `<dt>${name}</dt><dd class="${good ? 'good' : 'bad'}">${escaped(said)}</dd>`).join(''));
        return true;
    };
    const cleared = await library.call('clear', own.image, state.limits);
    const why = cleared.answered ? '' : await explained(cleared, own);
    const weighed = cleared.answered || cleared.refused > 8;
    row('Weight check', weighed, weighed ? 'passes' : why);
    if (!row('Cube check', cleared.answered, cleared.answered ? 'passes' : cleared.refused === 8 ? 'not made where the weights fail' : why)) return undefined;
    const mirrored = await library.call('mirrorClear', own.image, state.limits);
    if (!row('Mirror', mirrored.answered, mirrored.answered ? 'clears' : await explained(mirrored, own))) return undefined;
    const empty = Uint8Array.of(0, 0);
    const set = await library.call('compareSigned', own.image, empty, empty, state.limits);
    const closes = 'closes: programs with back moves can be compared';
    return row('Set', set.answered, set.answered ? closes : `${await explained(set, own)}\nPrograms with back moves cannot be compared under this table.`);
}

/** Takes a table file: text by its name, else an image. @param {File} file */
export async function takeTable(file) {
    const current = turn('table-file');
    const read = await readFile(file);
    if (!current()) return undefined;
    const stays = 'The table before it stays.';
    if ('fault' in read) return note('table-note', `${file.name}: ${read.fault}. ${stays}`, true);
    if (read.text) {
        const faults = readTable(read.bytes).faults ?? [];
        if (faults.length > 0) {
            const told = faults.slice(0, 5).map((fault) => `line ${fault.line}, column ${fault.column}: ${short(fault.what)}`);
            const more = faults.length > 5 ? [`and ${number(faults.length - 5)} more`] : [];
            note('table-note', `${file.name}: ${[...told, ...more].join('\n')}\n${stays} `, true);
            const edit = document.createElement('button');
            edit.type = 'button';
            edit.textContent = 'Edit it here instead';
            edit.onclick = () => setTable(decoded(read.bytes), `from ${file.name}`);
            return $('table-note').append(edit);
        }
        return setTable(decoded(read.bytes), `from ${file.name}`);
    }
    const unpacked = await library.call('unpackTable', read.bytes);
    if (!current()) return undefined;
    const hint = 'A table as text is read where the name ends in .txt.';
    if (!unpacked.answered) return note('table-note', `${file.name}: ${refusedText(unpacked)}. ${stays} ${hint}`, true);
    return setTable(tableText(unpacked.bytes), `from ${file.name}`);
}

export function setTable(/** @type {string} */ text, said = '') {
    $('table-text').value = text;
    note('table-note', said);
    return readTableText();
}

export function wireTable() {
    $('builtin').innerHTML = '<option value="">a table of your own</option>' + BUILTINS.map(({ name }, k) => `<option value="${k}">${name}</option>`).join('');
    $('builtin').onchange = () => $('builtin').value !== '' && setTable(BUILTINS[$('builtin').value].text);
    $('table-text').oninput = () => {
        ask('checks');
        ask('compare');
        $('table-marks').textContent = '';
        note('table-note', '');
        later('table', readTableText);
    };
    $('table-text').onscroll = scrolled;
    $('table-faults').onclick = (/** @type {any} */ { target }) => target.dataset.line && goTo(Number(target.dataset.line), Number(target.dataset.column));
    $('save-image').onclick = () => state.table && save('table.table', state.table.image);
    $('save-text').onclick = () => state.table && save('table.txt', tableText(state.table.plain), 'text/plain');
}
