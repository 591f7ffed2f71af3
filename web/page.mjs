/**
 * The bench page: its views, what is dropped on it, cases, and how it opens. Every verdict, chain, bed and listing comes from the library in the worker; what
 * is shown beside them is worked out in the page and decides nothing.
 */
import { bed } from './bed_view.mjs';
import { library, refusedText } from './calling.mjs';
import { LARGEST, caseText, readAddress, readCase, readPasted } from './cases.mjs';
import { compare } from './compare_view.mjs';
import { bothPrograms, missing, note, takeProgram } from './programs.mjs';
import { reverse } from './reverse_view.mjs';
import { $, ask, later, moves, number, state, turn } from './state.mjs';
import { setTable, showChecks, takeTable, wireTable } from './table_view.mjs';
import { BUILTINS, tableText } from './tables.mjs';
import { takeLogs, tray, wireTray } from './tray_view.mjs';

/** Asks again for what is seen, and for the verdict, which may be printed from every view. @param {boolean} [checks] the table or the limits have changed */
state.refresh = async (checks = false) => {
    await Promise.all([
        compare(),
        ...(checks ? [showChecks()] : []),
        ...(state.view === 'tray' ? [tray()] : []),
        ...(state.view === 'bed' ? [bed()] : []),
        ...(state.view === 'reverse' ? [reverse()] : []),
    ]);
};

function readLimits() {
    /** @type {Record<string, number>} */
    const read = {};
    const faults = [];
    for (const [key, name] of /** @type {const} */ ([['allowance', 'the allowance'], ['workspace', 'the workspace']])) {
        const good = /^[0-9]{1,10}$/.test($(key).value) && Number($(key).value) <= LARGEST[key];
        if (good) read[key] = Number($(key).value);
        else faults.push(`${name} is a whole number from 0 to ${number(LARGEST[key])}`);
        $(key).setAttribute('aria-invalid', String(!good));
    }
    const stay = `${number(state.limits.allowance)} and ${number(state.limits.workspace)} stay.`;
    $('limits-fault').textContent = faults.length > 0 ? `${faults.join(', ')}. ${stay}` : '';
    if (faults.length === 0) state.limits = /** @type {any} */ (read);
    return state.refresh(true);
}

function show(/** @type {string} */ name) {
    state.view = name;
    $('page-note').textContent = '';
    for (const section of document.querySelectorAll('main > section')) /** @type {any} */ (section).hidden = section.id !== `view-${name}`;
    for (const button of document.querySelectorAll('nav button')) {
        if (/** @type {any} */ (button).dataset.view === name) button.setAttribute('aria-current', 'page');
        else button.removeAttribute('aria-current');
    }
    if (location.hash.length > 1) history.replaceState({ view: state.view }, '', location.hash);
    if (name === 'tray') tray();
    if (name === 'bed') bed();
    if (name === 'reverse') reverse();
}

/**
 * What a file field takes, and where it tells of one that it cannot take.
 * @type {Record<string, {take: (files: File[]) => any, note: string, many?: boolean}>}
 */
const takers = {
    'table-file': { take: ([file]) => takeTable(file), note: 'table-note' },
    'first-file': { take: ([file]) => takeProgram(file, 'first'), note: 'first-note' },
    'second-file': { take: ([file]) => takeProgram(file, 'second'), note: 'second-note' },
    'program-file': { take: ([file]) => takeProgram(file, 'program'), note: 'program-note' },
    'tray-files': { take: takeLogs, note: 'tray-fault', many: true },
};

function takeFiles(/** @type {string} */ id, /** @type {File[]} */ files) {
    const taker = takers[id];
    $('page-note').textContent = '';
    if (files.length === 0) note(taker.note, 'that is no file', true);
    else if (files.length > 1 && !taker.many) note(taker.note, `${files.length} files at once: one is taken here, so none was`, true);
    else taker.take(files);
}

function wireDrops() {
    for (const id of Object.keys(takers)) {
        $(id).onchange = () => {
            const files = [...$(id).files];
            $(id).value = '';
            if (files.length > 0) takeFiles(id, files);
        };
    }
    // Text that is dragged into a field is the browser's to put there.
    const files = (/** @type {DragEvent} */ event) => event.dataTransfer?.types.includes('Files');
    for (const zone of /** @type {NodeListOf<HTMLElement>} */ (document.querySelectorAll('.drop'))) {
        zone.ondragover = (event) => {
            if (files(event)) zone.classList.add('over');
        };
        zone.ondragleave = (event) => {
            if (!zone.contains(/** @type {any} */ (event.relatedTarget))) zone.classList.remove('over');
        };
        zone.ondrop = (event) => {
            zone.classList.remove('over');
            if (!files(event)) return;
            event.preventDefault();
            event.stopPropagation();
            takeFiles(zone.dataset.drop ?? '', [...(event.dataTransfer?.files ?? [])]);
        };
    }
    // A file that is dropped elsewhere would be opened in the page's place.
    window.ondragover = (event) => files(event) && event.preventDefault();
    window.ondrop = (event) => {
        if (!files(event)) return;
        event.preventDefault();
        $('page-note').textContent = 'Nothing takes a file there: drop it inside a dashed frame.';
    };
}

function wireCases() {
    $('copy-case').onclick = async () => {
        const own = state.table;
        const both = await bothPrograms(own, () => true);
        $('case-status').textContent = '';
        if (!own || !both) {
            $('case-fault').textContent = `The case is not copied: ${missing()}.`;
            return;
        }
        $('case-fault').textContent = '';
        const text = caseText({ table: own.image, first: both[0].image, second: both[1].image, ...state.limits });
        try {
            await navigator.clipboard.writeText(text);
            $('case-status').textContent = 'The case is copied.';
        } catch {
            window.prompt('Copy the case:', text.replace(/\n/g, ' '));
        }
    };
    $('paste-case').onclick = async () => {
        let text;
        try {
            text = await navigator.clipboard.readText();
        } catch {
            text = window.prompt('Paste a case:');
        }
        if (text !== null) await takeCase(readPasted(text));
    };
    // An address that is pasted over another opens no new page.
    window.onhashchange = () => {
        show('compare');
        takeCase(readAddress(location.hash));
    };
}

function wire() {
    wireTable();
    for (const field of ['first', 'second', 'program']) {
        $(field).oninput = () => {
            ask(field === 'program' ? 'reverse' : 'compare');
            note(`${field}-note`, '');
            $('case-fault').textContent = $('case-status').textContent = '';
            later(field, field === 'program' ? reverse : state.refresh);
        };
    }
    for (const field of ['allowance', 'workspace']) {
        $(field).oninput = () => {
            ask('compare');
            later('limits', readLimits);
        };
    }
    $('left').onchange = reverse;
    $('bed-at').oninput = bed;
    matchMedia('(prefers-color-scheme: dark)').onchange = () => state.view === 'bed' && bed();
    $('stop').onclick = () => library.stop();
    for (const button of document.querySelectorAll('nav button')) /** @type {any} */ (button).onclick = () => show(/** @type {any} */ (button).dataset.view);
    wireTray();
    $('print').onclick = () => window.print();
    wireDrops();
    wireCases();
}

/** Takes a case; whether it could be taken. @param {ReturnType<typeof readCase>} read */
async function takeCase(read) {
    const current = turn('case');
    $('case-status').textContent = '';
    $('case-fault').textContent = read.fault ? `The case: ${read.fault}. Nothing was changed.` : '';
    if (!read.case) return false;
    const given = read.case;
    const wrong = (/** @type {string} */ of, /** @type {any} */ refusal) => {
        $('case-fault').textContent = `The case's ${of}: ${refusedText(refusal)}. Nothing was changed.`;
        return false;
    };
    const unpacked = await library.call('unpackTable', given.table);
    if (!unpacked.answered) return wrong('table', unpacked);
    const programs = [];
    for (const [key, name] of /** @type {const} */ ([['first', 'log'], ['second', 'pattern']])) {
        const program = await library.call('unpackProgram', given.table, given[key]);
        if (!program.answered) return wrong(name, program);
        programs.push(moves(program.bytes).join(' '));
    }
    if (!current()) return false;
    [$('first').value, $('second').value] = programs;
    state.limits = { allowance: given.allowance, workspace: given.workspace };
    for (const key of /** @type {const} */ (['allowance', 'workspace'])) {
        $(key).value = state.limits[key];
        $(key).setAttribute('aria-invalid', 'false');
    }
    $('limits-fault').textContent = '';
    for (const field of ['first', 'second']) note(`${field}-note`, '');
    await setTable(tableText(unpacked.bytes));
    return true;
}

async function open() {
    [$('first').value, $('second').value, $('program').value] = ['1 2 1', '2 1 2', '-3 1 -2 1 2'];
    const address = location.hash;
    show(address.length > 1 ? (history.state?.view ?? 'compare') : 'table');
    if (address.length > 1 && (await takeCase(readAddress(address)))) return;
    await setTable(BUILTINS[2].text);
}

wire();
open();
