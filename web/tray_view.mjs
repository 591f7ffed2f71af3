/** The view Tray: many logs against the pattern of Compare. */
import { TEXTS, trayOf } from './braid.mjs';
import { explained, library } from './calling.mjs';
import { csv } from './cases.mjs';
import { escaped } from './drawing.mjs';
import { programOf, readFile, withoutLineEnd } from './programs.mjs';
import { $, ask, encoded, put, save, short, shown, state, turn } from './state.mjs';

/** @typedef {import('./programs.mjs').Content} Content */
/** @typedef {import('./state.mjs').Fault} Fault */

/** The logs that were taken: what stands in each, or why nothing does. @type {{name: string, read: Content | Fault}[]} */
let logs = [];
/** A row for each log: its name, what is told of it, and its steps. @type {[string, string, number | string][]} */
let rows = [];
/** The column by which the rows are sorted, and how. */
let sorted = { column: -1, down: false };

export async function takeLogs(/** @type {File[]} */ files) {
    const current = turn('tray-files');
    const taken = [];
    for (const file of files) taken.push({ name: file.name, read: await readFile(file) });
    if (!current()) return;
    logs = taken;
    sorted = { column: -1, down: false };
    await tray();
}

export async function tray() {
    const own = state.table;
    const current = ask('tray');
    $('save-csv').disabled = true;
    const pattern = await programOf(encoded($('second').value), own);
    if (!current()) return;
    const none = (/** @type {string} */ why) => {
        $('tray-fault').textContent = why;
        rows = [];
        showRows();
    };
    if (!own || pattern.fault !== undefined) {
        $('tray-pattern').textContent = '';
        none(`The pattern: ${pattern.fault}`);
        return;
    }
    $('tray-pattern').textContent = short(shown(pattern.word ?? []));
    const found = [];
    for (let at = 0; at < logs.length; at += 64) {
        const some = logs.slice(at, at + 64);
        /** @type {{image?: Uint8Array, fault?: string}[]} */
        const images = [];
        for (const { read } of some) {
            if ('fault' in read) images.push(read);
            else images.push(read.text ? await programOf(withoutLineEnd(read.bytes), own) : { image: read.bytes });
        }
        const laid = trayOf(images.map((program) => program.image ?? new Uint8Array()));
        const told = laid && (await library.call('tray', own.image, laid, pattern.image, state.limits));
        if (!current()) return;
        if (!told?.answered) {
            none(told ? await explained(told, own) : 'a log is too long');
            return;
        }
        some.forEach(({ name }, k) => {
            const log = told.logs[k];
            const fault = images[k].fault;
            if (fault) found.push([name, fault.replace('\n', ': '), '']);
            else if (log.refused) found.push([name, `refused ${log.refused}: ${TEXTS[log.refused]}`, '']);
            else found.push([name, log.same ? 'same' : 'different', log.steps]);
        });
    }
    $('tray-fault').textContent = '';
    rows = /** @type {any} */ (found);
    showRows();
}

function showRows() {
    if (sorted.column >= 0) {
        // A log without steps comes after those with steps.
        const key = (/** @type {any[]} */ row) => (row[sorted.column] === '' ? Infinity : row[sorted.column]);
        const order = (/** @type {any} */ one, /** @type {any} */ two) => (key(one) < key(two) ? -1 : Number(key(one) > key(two)));
        rows.sort((one, two) => (sorted.down ? order(two, one) : order(one, two)));
    }
    document.querySelectorAll('#tray-table th').forEach((head, column) => {
        if (column === sorted.column) head.setAttribute('aria-sort', sorted.down ? 'descending' : 'ascending');
        else head.removeAttribute('aria-sort');
    });
    const count = (/** @type {(row: any[]) => boolean} */ of) => rows.filter(of).length;
    const [same, different] = [count((row) => row[1] === 'same'), count((row) => row[1] === 'different')];
    $('tray-table').hidden = $('save-csv').disabled = rows.length === 0;
    const kind = (/** @type {string} */ said) => (said === 'same' ? 'good' : 'bad');
    const line = (/** @type {any[]} */ row) => `<tr><td>${escaped(row[0])}</td><td class="${kind(row[1])}">${escaped(row[1])}</td><td>${row[2]}</td></tr>`;
    $('tray-table').querySelector('tbody').innerHTML = rows.map(line).join('');
    $('tray-table').classList.remove('asked');
    put('tray-counts', rows.length === 0 ? '' : `${same} same, ${different} different, ${rows.length - same - different} refused`);
}

export function wireTray() {
    $('save-csv').onclick = () => save('tray.csv', csv([['log', 'answer', 'steps'], ...rows]), 'text/csv');
    for (const button of document.querySelectorAll('[data-sort]')) {
        /** @type {any} */ (button).onclick = () => {
            const column = Number(/** @type {any} */ (button).dataset.sort);
            sorted = { column, down: sorted.column === column && !sorted.down };
            showRows();
        };
    }
}
