/**
 * Drives the bench page in a real browser, opened from a disk, over the browser's debugging pipe: trusted keys and mouse, files, the DOM; console and network
 * are watched.
 * Usage: node web/browser.mjs CHROMIUM, after sh web/build.sh. Pictures go to target/web/shots. The last line is 'N passed, M failed'.
 */
import { spawn } from 'node:child_process';
import { existsSync, mkdirSync, mkdtempSync, readFileSync, rmSync, statSync, writeFileSync } from 'node:fs';
import { tmpdir } from 'node:os';
import { join } from 'node:path';

const top = new URL('..', import.meta.url);
const page = new URL('target/web/braid.html', top).href;
const shots = new URL('target/web/shots/', top);
mkdirSync(shots, { recursive: true });
const profile = mkdtempSync(join(tmpdir(), 'braid-'));
const downloads = join(profile, 'saved');
mkdirSync(downloads);
const flags = ['--headless=new', '--no-sandbox', '--disable-gpu', '--no-first-run', '--remote-debugging-pipe', `--user-data-dir=${profile}`];
const browser = spawn(process.argv[2] ?? 'chromium', flags, { stdio: ['ignore', 'ignore', 'ignore', 'pipe', 'pipe'] });
let passed = 0;
let failed = 0;
/** @param {string} label @param {any} holds */
const hold = (label, holds) => {
    if (holds) passed++;
    else {
        failed++;
        console.log(`failed: ${label}`);
    }
};

// THE PIPE

/** @type {any} */ const [, , , input, output] = browser.stdio;
const waiting = new Map();
/** @type {string[]} */ const troubles = [];
/** @type {string[]} */ const fetched = [];
let next = 1;
let session = '';
let rest = '';
output.on('data', (/** @type {Buffer} */ data) => {
    rest += data;
    const messages = rest.split('\0');
    rest = messages.pop() ?? '';
    for (const text of messages) {
        const message = JSON.parse(text);
        waiting.get(message.id)?.(message);
        waiting.delete(message.id);
        if (message.method === 'Runtime.exceptionThrown') {
            const { exception, text } = message.params.exceptionDetails;
            troubles.push(exception?.description ?? text);
        }
        if (message.method === 'Runtime.consoleAPICalled' && message.params.type === 'error') troubles.push(JSON.stringify(message.params.args));
        if (message.method === 'Log.entryAdded' && message.params.entry.level === 'error') troubles.push(message.params.entry.text);
        // The library's worker is watched like the page.
        if (message.method === 'Target.attachedToTarget' && session) send('Runtime.enable', {}, message.params.sessionId).catch(() => undefined);
        if (message.method === 'Network.requestWillBeSent' && !/^(file|blob|data):/.test(message.params.request.url)) fetched.push(message.params.request.url);
    }
});
/** @param {string} method @param {any} [params] @param {string} [to] the session, the page's where none is named @returns {Promise<any>} */
function send(method, params = {}, to = session) {
    const id = next++;
    input.write(`${JSON.stringify({ id, method, params, ...(to ? { sessionId: to } : {}) })}\0`);
    return new Promise((resolve, reject) => {
        waiting.set(id, (/** @type {any} */ message) => (message.error ? reject(new Error(`${method}: ${message.error.message}`)) : resolve(message.result)));
    });
}

/** @param {string} expression */
const value = async (expression) => (await send('Runtime.evaluate', { expression, awaitPromise: true, returnByValue: true })).result.value;
const text = (/** @type {string} */ selector) => value(`document.querySelector(${JSON.stringify(selector)})?.innerText ?? ''`);
/** Waits until an expression holds, twenty seconds at most. @param {string} expression */
async function until(expression) {
    for (let k = 0; k < 400; k++) {
        if (await value(expression)) return true;
        await new Promise((resolve) => setTimeout(resolve, 50));
    }
    return false;
}
/** Presses of a button that did not come to it, and were made again. */
let repeated = 0;
/** A press of the mouse on an element. Where a press does not come to a button within a second, it is made once more, and counted. @param {string} selector */
async function click(selector) {
    for (const last of [false, true]) {
        const box = await value(`(() => { const e = document.querySelector(${JSON.stringify(selector)}); e.scrollIntoView({block: 'center'});
            window.pressed = e.tagName !== 'BUTTON' || e.disabled; e.addEventListener('click', () => { window.pressed = true; }, {capture: true, once: true});
            const r = e.getBoundingClientRect(); return [r.x + r.width / 2, r.y + r.height / 2]; })()`);
        for (const type of ['mousePressed', 'mouseReleased']) {
            await send('Input.dispatchMouseEvent', { type, x: box[0], y: box[1], button: 'left', clickCount: 1 });
        }
        for (let k = 0; k < 20; k++) {
            // a page that was left knows nothing of the press
            if ((await value('window.pressed')) !== false) return;
            await new Promise((resolve) => setTimeout(resolve, 50));
        }
        if (!last) repeated++;
    }
}
/** Types into a field in the place of what is there. @param {string} selector @param {string} typed */
async function type(selector, typed) {
    await click(selector);
    await value(`document.querySelector(${JSON.stringify(selector)}).select()`);
    await send('Input.insertText', { text: typed });
}
/** Hands files to a file field. @param {string} selector @param {string[]} files */
async function hand(selector, files) {
    const { root } = await send('DOM.getDocument');
    const { nodeId } = await send('DOM.querySelector', { nodeId: root.nodeId, selector });
    await send('DOM.setFileInputFiles', { nodeId, files });
}
/** Drops so many files of these bytes on an element. @param {string} selector @param {string} name @param {number[]} bytes @param {number} [count] */
const drop = (selector, name, bytes, count = 1) => dropMade(selector, name, JSON.stringify(bytes), count);
/** The same of bytes that an expression makes. @param {string} selector @param {string} name @param {string} made @param {number} [count] */
const dropMade = (selector, name, made, count = 1) =>
    value(`(() => { const d = new DataTransfer(), bytes = Uint8Array.from(${made});
        for (let k = 0; k < ${count}; k++) d.items.add(new File([bytes], ${JSON.stringify(name)}));
        document.querySelector(${JSON.stringify(selector)}).dispatchEvent(new DragEvent('drop', {dataTransfer: d, bubbles: true, cancelable: true})); })()`);
/** A key that is pressed. @param {string} key @param {number} number */
async function press(key, number) {
    const said = { key, code: key, windowsVirtualKeyCode: number, ...(key === 'Enter' ? { text: '\r' } : {}) };
    for (const type of ['keyDown', 'keyUp']) await send('Input.dispatchKeyEvent', { type, ...said });
}
/** A picture of the whole page, also of what a screen does not show at once. @param {string} name */
async function shot(name) {
    const { cssContentSize } = await send('Page.getLayoutMetrics');
    const clip = { x: 0, y: 0, width: await value('window.innerWidth'), height: Math.min(Math.max(cssContentSize.height, 700), 3000), scale: 1 };
    const { data } = await send('Page.captureScreenshot', { format: 'png', captureBeyondViewport: true, clip });
    writeFileSync(new URL(`${name}.png`, shots), Buffer.from(data, 'base64'));
}
/** The texts that are seen now and stand out too little from their ground (WCAG 2, 4.5 to 1). */
const faint = () =>
    value(`(() => {
        const parts = (colour) => { const [r, g, b, a = 1] = colour.match(/[0-9.]+/g).map(Number); return { rgb: [r, g, b].map((v) => v / 255), a }; };
        const weights = [0.2126, 0.7152, 0.0722];
        const light = ({ rgb }) => rgb.reduce((sum, v, k) => sum + weights[k] * (v <= 0.03928 ? v / 12.92 : ((v + 0.055) / 1.055) ** 2.4), 0);
        const ground = (e) => {
            const colour = parts(getComputedStyle(e).backgroundColor);
            return colour.a === 1 || !e.parentElement ? colour : ground(e.parentElement);
        };
        const found = [];
        const walk = document.createTreeWalker(document.body, NodeFilter.SHOW_TEXT);
        while (walk.nextNode()) {
            const e = walk.currentNode.parentElement;
            const ink = parts(getComputedStyle(e).color);
            const seen = walk.currentNode.data.trim() && e.checkVisibility({ visibilityProperty: true }) && ink.a > 0;
            if (!seen || e.closest('svg, option, :disabled')) continue;
            const [one, two] = [light(ink), light(ground(e))];
            if ((Math.max(one, two) + 0.05) / (Math.min(one, two) + 0.05) < 4.5) found.push(walk.currentNode.data.trim());
        }
        return found.join('; ');
    })()`);
/** @param {number} width @param {'light' | 'dark'} scheme */
async function looks(width, scheme) {
    await send('Emulation.setDeviceMetricsOverride', { width, height: 900, deviceScaleFactor: 1, mobile: width < 600 });
    await send('Emulation.setEmulatedMedia', { features: [{ name: 'prefers-color-scheme', value: scheme }] });
}
const file = (/** @type {string} */ name) => new URL(name, top).pathname;
/** Whether a file that the page saved is as it must be. @param {string} name @param {(bytes: Buffer) => boolean} right */
async function saved(name, right) {
    for (let k = 0; k < 200; k++) {
        if (existsSync(join(downloads, name))) return right(readFileSync(join(downloads, name)));
        await new Promise((resolve) => setTimeout(resolve, 50));
    }
    return false;
}

async function run() {
    await send('Browser.grantPermissions', { permissions: ['clipboardReadWrite', 'clipboardSanitizedWrite'] });
    await send('Browser.setDownloadBehavior', { behavior: 'allow', downloadPath: downloads });
    const { targetId } = await send('Target.createTarget', { url: 'about:blank' });
    session = (await send('Target.attachToTarget', { targetId, flatten: true })).sessionId;
    for (const domain of ['Page', 'Runtime', 'Log', 'Network', 'DOM']) await send(`${domain}.enable`);
    await send('Target.setAutoAttach', { autoAttach: true, waitForDebuggerOnStart: false, flatten: true });
    await looks(1200, 'light');
    const begun = Date.now();
    await send('Page.navigate', { url: page });
    hold('the table is checked', await cleared());
    console.log(`the first checks ${Date.now() - begun} ms after opening; the page has ${statSync(new URL('target/web/braid.html', top)).size} bytes`);

    await table();
    await compare();
    await tray();
    await bed();
    await reverse();
    await stopping();
    await long();
    await rubbish();
    await printing();
    await keys();
    await views();
    await addresses();
    hold(`no trouble: ${troubles.join('; ')}`, troubles.length === 0);
    hold(`nothing fetched: ${fetched.join(' ')}`, fetched.length === 0);
}

/** Whether an element's text comes to hold this. @param {string} selector @param {string} part */
const says = (selector, part) => until(`document.querySelector(${JSON.stringify(selector)})?.innerText.includes(${JSON.stringify(part)})`);
const pick = (/** @type {number} */ builtin) =>
    value(`document.querySelector('#builtin').value = ${builtin}; document.querySelector('#builtin').dispatchEvent(new Event('change'))`);
const cleared = () => until("document.querySelectorAll('#checks dd.good').length === 4");
const verdict = (/** @type {string} */ said) => until(`document.querySelector('#verdict:not(.asked) .verdict')?.innerText === '${said}'`);

async function table() {
    await type('#table-text', 'moves 3\n1 2 = 2 1\n1 3 = 3 1\n2 1 = 3 1\n');
    hold('the triple with both sides', await says('#checks', '(1\\2)\\(1\\3) is 1, (2\\1)\\(2\\3) is the empty word'));
    await shot('table-fails');
    await type('#table-text', 'moves 2\n1 2 1 = 2 2\n');
    hold('weights with both sides', await says('#checks', 'refused 8 1 2: the two sides of a relation have different weights\n1 2 1 weighs 3, 2 2 weighs 2'));
    await type('#table-text', 'moves 3\n# a comment\n1 2 = 4 1\n\n1 3 =\n');
    hold('an error in the list', await says('#table-faults', 'line 3, column 7: a move is a number from 1 to 3, and not \'4\''));
    const lines = await value(`(() => {
        const field = document.querySelector('#table-text'), height = parseFloat(getComputedStyle(field).lineHeight);
        const middle = (e) => e.getBoundingClientRect().top + e.getBoundingClientRect().height / 2 - field.getBoundingClientRect().top - 5;
        return [...document.querySelectorAll('#table-marks span')].map((e) => Math.floor(middle(e) / height) + 1 + ' ' + e.innerText).join(', '); })()`);
    hold(`each at its line: ${lines}`, lines === "3 a move is a number from 1 to 3, and not '4', 5 a side has at least one move");
    hold('their lines are marked', await value("[...document.querySelectorAll('#table-lines .bad')].map((e) => e.innerText).join() === '3,5'"));
    await shot('table-errors');
    await click('#table-faults .at');
    hold('the cursor goes there', await value("document.activeElement.id === 'table-text' && document.activeElement.selectionStart === 26"));
    hold('no table, no image of it', await value("document.querySelector('#save-image').disabled"));
    await pick(3);
    hold('four moves and back moves', await says('#checks', 'Programs with back moves cannot be compared under this table.'));
    hold('why', await says('#checks', 'refused 22: the set would have more than 256 words'));
    await pick(20);
    hold('one that never ends, or breaks the rule', await says('#checks', 'refused 9 1 2 3'));
    await hand('#table-file', [file('samples/braid3.table')]);
    hold('a table image', await cleared());
    hold('its file is named', await says('#table-note', 'from braid3.table'));
    await click('#save-image');
    hold('the table as an image', await saved('table.table', (bytes) => bytes.equals(readFileSync(file('samples/braid3.table')))));
    await click('#save-text');
    hold('the table as text', await saved('table.txt', (bytes) => bytes.toString() === 'moves 3\nweights 1 1 1\n1 2 1 = 2 1 2\n1 3 = 3 1\n2 3 2 = 3 2 3\n'));
    await hand('#table-file', [file('samples/tables/bad/many.txt')]);
    hold('a text with errors', await says('#table-note', 'many.txt: line '));
    hold('leaves the table', (await value("document.querySelector('#table-text').value.startsWith('moves 3\\nweights')")) && (await cleared()));
    await click('#table-note button');
    hold('it can be mended here', await until("document.querySelectorAll('#table-faults li').length > 3"));
    await hand('#table-file', [file('samples/braid3.txt')]);
    hold('a table text', await until("document.querySelector('#table-text').value.includes('four strands')"));
    hold('it clears', await cleared());
}

async function compare() {
    await click('[data-view=compare]');
    hold('same', await verdict('Same'));
    hold('its chain', await until("document.querySelectorAll('#detail li').length === 2 && document.querySelector('#detail mark').innerText === '1 2 1'"));
    hold('what it means', await says('#verdict', 'The log lays the same cord as the pattern: a chain of swaps leads from one to the other. 5 steps.'));
    await click('#forward');
    hold('one word on', await value("document.querySelectorAll('#detail li')[1].getAttribute('aria-current') === 'step'"));
    await click('#back');
    hold('and back', await value("document.querySelectorAll('#detail li')[0].getAttribute('aria-current') === 'step'"));
    await value("document.querySelector('#detail .words').focus()");
    await press('ArrowDown', 40);
    hold('by keys, too', await value("document.querySelectorAll('#detail li')[1].getAttribute('aria-current') === 'step'"));
    hold('the case in the address', (await value('location.hash')).startsWith('#table=2004908630929260&first=003040&second=003208'));
    await shot('compare-same');
    await click('#copy-case');
    hold('it says that it copied', await says('#case-status', 'The case is copied.'));
    await type('#first', '3 3 3');
    hold('no verdict of another question is seen', await value("document.querySelector('#verdict').classList.contains('asked')"));
    hold('another log', await verdict('Different'));
    await click('#paste-case');
    hold('the case that was copied', await until("document.querySelector('#first').value === '1 2 1'"));
    hold('same again', (await verdict('Same')) && (await until("document.querySelectorAll('#detail li').length === 2")));
    await value("navigator.clipboard.writeText('<b>rubbish</b>')");
    await click('#paste-case');
    hold('a case that is none', await says('#case-fault', "The case: line 1: '<b>rubbish</b>' is no part of a case"));
    await type('#first', '(1 2 3)^4');
    await type('#second', '(1 2 3)^3 1 2 2');
    hold('different', await verdict('Different'));
    hold('what is left', await says('#detail', 'N = '));
    hold('where the beds differ', await says('#detail', 'total of bobbins 2 and 4'));
    hold('by how much', await until("[...document.querySelectorAll('#detail tbody tr')].some((row) => row.innerText === 'bobbin at place 3\t3\t2')"));
    await shot('compare-different');
    await type('#first', '1 1 2 2');
    await type('#second', '2 2 1 1');
    hold('equal beds', await says('#detail', 'Both leave equal beds, though the programs are not the same.'));
    await type('#first', '1 2 -1');
    await type('#second', '-2 1 2');
    hold('back moves', await says('#verdict', 'compare_signed decided: 4 and 1 steps'));
    hold('what same means of them', await says('#verdict', 'a chain of swaps, and of moves put in or taken out beside their undoing, leads from'));
    await type('#second', '-2 1');
    hold('different with back moves', (await verdict('Different')) && (await says('#detail', 'is reversed to N = ')));
    await type('#first', '1  2');
    hold('no pattern', await says('#first-fault', 'refused 19: the text is no pattern\nline 1, column 3: a space cannot stand here'));
    hold('no verdict then', await verdict('No verdict'));
    await drop('#programs .drop', 'log.program', [0x00, 0x30, 0x40]);
    hold('a log that is dropped', await until("document.querySelector('#first').value === '1 2 1'"));
    await type('#second', '2 1 2');
    await type('#workspace', '10');
    const short = 'refused 12 1 2 3: the workspace is too short\nwhile the triple 1 2 3 of the table was checked';
    hold('a refusal with its number and place', await says('#verdict', short));
    await type('#allowance', '65536');
    hold('no such allowance', await says('#limits-fault', 'the allowance is a whole number from 0 to 65,535. 65,535 and 10 stay.'));
    await type('#allowance', '65535');
    await type('#workspace', '-1');
    hold('no such workspace', await says('#limits-fault', 'the workspace is a whole number from 0 to 16,777,216.'));
    await type('#workspace', '16777216');
    hold('the largest one', (await verdict('Same')) && (await value("document.querySelector('#limits-fault').innerText === ''")));
    await type('#workspace', '32768');
    // An open pair: no N, no D, and why.
    await pick(17);
    await type('#first', '1 1');
    await type('#second', '1 2');
    hold('an open pair', await says('#detail', '-1 2 is met after 1 step, and the pair 1, 2 has no relation'));
    await hand('#table-file', [file('samples/braid3.txt')]);
    await type('#first', '(1 2 3)^50 (1 2 1)^90');
    await type('#second', '(1 2 3)^50 (2 1 2)^90');
    hold('a chain of words that are long', (await verdict('Same')) && (await until("document.querySelectorAll('#detail li').length === 91")));
    hold('of which is shown what stands around the swap', await says('#detail li', 'moves ..'));
}

async function tray() {
    await type('#second', '(1 2 3)^4');
    await click('[data-view=tray]');
    const logs = ['monday.program', 'tuesday.txt', 'wednesday.program', 'thursday.program', 'friday.txt', 'saturday.txt'];
    await hand('#tray-files', logs.map((name) => file(`samples/logs/${name}`)));
    hold('six logs', await says('#tray-counts', '2 same, 1 different, 3 refused'));
    await click('[data-sort="1"]');
    hold('sorted by the answer', await value("document.querySelector('#tray-table tbody td:nth-child(2)').innerText === 'different'"));
    await shot('tray');
    await click('#save-csv');
    hold('the tray as CSV', await saved('tray.csv', (bytes) => bytes.toString().startsWith('log,answer,steps\r\nwednesday.program,different,12\r\n')));
    await click('[data-sort="2"]');
    hold('sorted by steps, upward', await until("document.querySelector('th[aria-sort=ascending]')?.innerText.startsWith('Steps')"));
    await click('[data-sort="2"]');
    hold('sorted by steps, downward', await until("document.querySelector('th[aria-sort=descending]')?.innerText.startsWith('Steps')"));
    // Another pattern: what is told of the logs is of it.
    await click('[data-view=compare]');
    await type('#second', '(1 2 3)^3 1 2 2');
    await click('[data-view=tray]');
    hold('the tray goes with the pattern', await says('#tray-counts:not(.asked)', '1 same, 2 different, 3 refused'));
    await dropMade('#view-tray .drop', 'many.program', '[0, 48, 64]', 130);
    hold('130 logs at once', await says('#tray-counts', '0 same, 130 different, 0 refused'));
    await click('[data-view=compare]');
    await type('#second', '(1 2 3)^4');
    await click('[data-view=tray]');
    await hand('#tray-files', logs.map((name) => file(`samples/logs/${name}`)));
    hold('six logs again', await says('#tray-counts', '2 same, 1 different, 3 refused'));
}

async function bed() {
    await click('[data-view=compare]');
    await type('#first', '1 3 3 2 1 2 3 2 2 1 3 2');
    await click('[data-view=bed]');
    hold('both drawings', await until("document.querySelectorAll('#beds svg').length === 2 && document.querySelector('#bed-count').innerText === '0 of 12'"));
    await click('[data-svg=Log]');
    hold('the log as SVG', await saved('log.svg', (bytes) => /^<svg [^]*<\/svg>$/.test(bytes.toString()) && !bytes.includes('cursor')));
    await click('[data-svg=Pattern]');
    hold('the pattern as SVG', await saved('pattern.svg', (bytes) => /^<svg [^]*<\/svg>$/.test(bytes.toString())));
    await click('#bed-at');
    hold('a place of the slider', await until("/^[5-7] of 12$/.test(document.querySelector('#bed-count').innerText)"));
    await press('Home', 36);
    for (let k = 0; k < 3; k++) await press('ArrowRight', 39);
    hold('keys move it', await until("document.querySelector('#bed-count').innerText === '3 of 12'"));
    const chips = "[...document.querySelectorAll('.chips')].map((list) => [...list.children].map((e) => e.innerText).join(' ')).join(', ')";
    hold('the places', await until(`${chips} === '2 1 3 4, 2 3 4 1'`));
    hold('and the totals', await says('.totals', '3 and 4: +2'));
    const named = "[...document.querySelectorAll('.cursor')[1].querySelectorAll('text')].map((e) => e.textContent).join(' ')";
    hold('the bobbins at the line', (await value(named)) === '2 3 4 1');
    await shot('bed');
    await click('[data-view=table]');
    await pick(20);
    await click('[data-view=bed]');
    hold('no braid table, no bed', await says('#bed-fault', "refused 15: the table isn't the braid table of its number of moves"));
    hold('no drawing of before', await value("document.querySelector('#beds').innerHTML === ''"));
    await click('[data-view=table]');
    await hand('#table-file', [file('samples/braid3.txt')]);
    await cleared();
}

async function reverse() {
    await click('[data-view=reverse]');
    hold('five steps', await until("document.querySelectorAll('#steps .words')[0]?.children.length === 6"));
    hold('the first site', await value("document.querySelector('#steps mark').innerText === '-3 1'"));
    await shot('reverse');
    await click('#left');
    hold('from the finished end', await until("document.querySelectorAll('#steps .words')[0]?.children.length === 2"));
    await type('#program', '1 2 1');
    hold('two ways', await says('#ways', 'Ways to lay it: 2'));
    hold('what is left to run', await says('#remainder', '3 2 3 1 2 3 1 2 3'));
    await click('#left');
    await type('#program', '-(1 1 2)^20 (3 3 2)^20');
    hold('more than 1,000 steps', await says('#steps', 'The words are shown of up to 1,000 steps.'));
    await drop('#view-reverse .drop', 'part.txt', [...Buffer.from('1 2\n')]);
    hold('a program that is dropped', await until("document.querySelector('#program').value === '1 2'"));
    hold('its remainder', await says('#remainder', '3 1 2 3 1 2 3 1 2 3'));
}

/** A call that takes long is stopped, and the page goes on. */
async function stopping() {
    await click('[data-view=table]');
    await pick(15);
    hold('the set of 16 moves', await says('#checks', 'refused 22'));
    await click('[data-view=reverse]');
    // Its ways fill the area in half a minute.
    await type('#program', '1 3 5 7 9 11 13 15 1');
    hold('what is known already is shown', await says('#fraction', '1 3 5 7 9 11 13 15 1'));
    hold('a long call is told', await until("!document.querySelector('#working').hidden"));
    await shot('working');
    await click('#stop');
    hold('it is stopped', await until("document.querySelector('#working').hidden"));
    hold('and says so where its answer would stand', await says('#ways', 'stopped: there is no answer'));
    await type('#program', '-1 2');
    hold('and the page goes on', await until("document.querySelector('#fraction:not(.asked)')?.innerText.includes('2 1')"));
    await click('[data-view=table]');
    await pick(8);
    hold('the set of nine moves', await says('#checks', 'refused 22'));
}

/** A program of 3,960 moves. */
async function long() {
    await click('[data-view=compare]');
    await type('#first', '((1 2 3 -4)^99)^10');
    await type('#second', '');
    const drawn = Date.now();
    await click('[data-view=bed]');
    hold('it is drawn', await until("document.querySelector('#beds h3')?.innerText === 'Log: 3,960 moves'"));
    console.log(`3,960 moves drawn ${Date.now() - drawn} ms after the view was asked for`);
    const frames = await value(`new Promise((resolve) => { const box = document.querySelector('.drawing'), times = []; let before = performance.now();
        const step = (now) => { times.push(now - before); before = now; box.scrollTop += 900;
            if (times.length < 60) requestAnimationFrame(step); else resolve(Math.max(...times.slice(5))); };
        requestAnimationFrame(step); })`);
    console.log(`while it scrolls, the longest frame takes ${Math.round(frames)} ms`);
    // How smoothly is a bar of speed: on a machine that does other work it is told and not counted.
    if (process.env.CI !== 'true') hold('it scrolls smoothly', frames < 120);
    await value("document.querySelector('#bed-at').value = 2000; document.querySelector('#bed-at').dispatchEvent(new Event('input'))");
    hold('its middle', await says('#bed-count', '2000 of 3960'));
    await shot('bed-long');
}

/** Any bytes, dropped anywhere: a message at that place, and the rest as it was. */
async function rubbish() {
    await click('[data-view=table]');
    await hand('#table-file', [file('samples/braid3.txt')]);
    await cleared();
    await click('[data-view=compare]');
    await type('#first', '1 2 1');
    await type('#second', '2 1 2');
    await verdict('Same');
    const fields = "['table-text', 'first', 'second', 'program', 'allowance', 'workspace'].map((id) => document.getElementById(id).value).join('|')";
    const seen = `${fields} + document.querySelector('#checks').innerHTML + document.querySelector('#verdict').innerHTML + location.hash`;
    // Bytes of a run that is always the same, by a generator of Lehmer's.
    const random = 'Array.from({length: 300}, ((x) => () => (x = x * 48271 % 2147483647) & 255)(7))';
    const kinds = [['empty', '[]'], ['random', random], ['huge', '{length: 5000000}'], ['zeros', '{length: 300}'], ['high', 'Array(300).fill(255)']];
    for (const [view, zone, told] of [
        ['table', '#view-table .drop', '#table-note'],
        ['compare', '#programs .drop:first-child', '#first-note'],
        ['compare', '#programs .drop:last-child', '#second-note'],
        ['reverse', '#view-reverse .drop', '#program-note'],
    ]) {
        await click(`[data-view=${view}]`);
        const before = await value(seen);
        for (const [kind, made] of kinds) {
            for (const name of [`${kind}.bin`, `${kind}.txt`]) {
                // No moves at all is a pattern: an empty text is a good program.
                if (name === 'empty.txt' && view !== 'table') continue;
                await dropMade(zone, name, made);
                hold(`${name} on ${zone}`, await until(`document.querySelector('${told}.faults')?.innerText.includes('${name}: ')`));
                hold(`${name} on ${zone} changes nothing else`, (await value(seen)) === before);
            }
        }
        await drop(zone, 'two', [1], 2);
        hold(`two files on ${zone}`, await says(told, '2 files at once'));
    }
    await shot('rubbish');
    await click('[data-view=tray]');
    for (const [kind, made] of kinds) {
        for (const name of [`${kind}.bin`, `${kind}.txt`]) {
            await dropMade('#view-tray .drop', name, made);
            hold(`${name} on the tray`, await until(`document.querySelector('#tray-table:not(.asked) tbody')?.innerText.startsWith('${name}')`));
            const answer = await text('#tray-table tbody td:nth-child(2)');
            const refused = /^(refused \d+: |the text has 5,000,000 bytes)/.test(answer);
            hold(`what is told of ${name}: ${answer}`, name === 'empty.txt' ? answer === 'different' : refused);
        }
    }
    await hand('#tray-files', [tmpdir()]);
    hold('a folder', await says('#tray-table:not(.asked) tbody', 'it cannot be read: a folder, or a file that was taken away'));
    await drop('h1', 'elsewhere', [1, 2, 3]);
    hold('a file dropped elsewhere', await says('#page-note', 'drop it inside a dashed frame'));
    await click('[data-view=compare]');
    await type('#first', '1'.repeat(300000));
    hold('a text that is too long', await says('#first-fault', 'the text has 300,000 bytes'));
    await click('[data-view=table]');
    await value("document.querySelector('#table-text').value = 'x\\n'.repeat(100000)");
    await value("document.querySelector('#table-text').dispatchEvent(new Event('input'))");
    hold('a table of 100,000 errors', await says('#table-faults', 'more'));
    await hand('#table-file', [file('samples/braid3.txt')]);
    hold('the sample again', await cleared());
}

/** One page for 500 moves, with the verdict, both programs and the table's digest; from another view, too. */
async function printing() {
    await click('[data-view=compare]');
    await type('#first', '((1 2 3)^83 1)^2');
    await type('#second', '((1 2 3)^83 1)^2');
    hold('500 moves are the same', await until("document.querySelector('#printed:not(.asked)')?.textContent.includes('Pattern, 500 moves')"));
    await verdict('Same');
    for (const view of ['compare', 'bed']) {
        await click(`[data-view=${view}]`);
        const { data } = await send('Page.printToPDF', { printBackground: true });
        const pages = Buffer.from(data, 'base64').toString('latin1').match(/\/Type\s*\/Page[^s]/g);
        hold(`one page is printed from ${view}: ${pages?.length}`, pages?.length === 1);
        await send('Emulation.setEmulatedMedia', { media: 'print' });
        if (view === 'compare') await shot('printed');
        const printed = await value("[...document.querySelectorAll('.verdict, #printed, footer')].every((e) => e.getBoundingClientRect().height > 0)");
        hold('with the verdict, the programs and the digest', printed && (await text('footer')).includes('398d50dd560c177a'));
        const worked = "[...document.querySelectorAll('button, textarea, input, select')].filter((e) => e.checkVisibility()).length";
        hold('and without fields and buttons', (await value(worked)) === 0);
        await send('Emulation.setEmulatedMedia', { media: '' });
    }
    // The longest numbers: 500 moves of two digits, half of them back moves.
    await click('[data-view=table]');
    await pick(15);
    await click('[data-view=compare]');
    await type('#first', '(16 -15)^99 (16 -15)^99 (14 -13)^52');
    await type('#second', '(-15 16)^99 (-15 16)^99 (-13 14)^52');
    hold('no verdict with back moves there', (await verdict('No verdict')) && (await says('#verdict', 'refused 22')));
    hold('no other programs are printed', await until("document.querySelector('#printed').textContent.includes('Log, 500 moves: 16 -15')"));
    const { data } = await send('Page.printToPDF', { printBackground: true });
    hold('one page of the longest numbers', Buffer.from(data, 'base64').toString('latin1').match(/\/Type\s*\/Page[^s]/g)?.length === 1);
}

async function keys() {
    await click('[data-view=table]');
    await hand('#table-file', [file('samples/braid3.txt')]);
    await cleared();
    await click('[data-view=compare]');
    await type('#first', '1 3 3 2 1 2 3 2 2 1 3 2');
    await type('#second', '(1 2 3)^4');
    await click('[data-view=table]');
    await value("document.querySelector('nav button').focus()");
    await press('Tab', 9);
    await press('Enter', 13);
    hold('the keyboard picks a view', await until("document.querySelector('[data-view=compare]').getAttribute('aria-current') === 'page'"));
    const buttons = "[...document.querySelectorAll('.drop')].map((e) => e.querySelector('input[type=file]')?.id === e.dataset.drop).join()";
    hold('a file button at every drop place', (await value(buttons)) === 'true,true,true,true,true');
    // From the first field on, Tab comes to all that can be worked, in this order.
    await value("document.querySelector('#first').focus()");
    const reached = [];
    for (let k = 0; k < 9; k++) {
        reached.push(await value('document.activeElement.id'));
        await press('Tab', 9);
    }
    hold(`by Tab: ${reached}`, reached.join() === 'first,first-file,second,second-file,allowance,workspace,copy-case,paste-case,print');
}

/** Each view, light and dark, wide and narrow. */
async function views() {
    await verdict('Same');
    await value("document.querySelector('#bed-at').value = 6");
    await hand('#tray-files', ['monday.program', 'tuesday.txt', 'wednesday.program', 'friday.txt'].map((name) => file(`samples/logs/${name}`)));
    await click('[data-view=reverse]');
    await type('#program', '-3 1 -2 1 2');
    for (const name of ['table', 'compare', 'tray', 'bed', 'reverse']) {
        for (const [width, scheme] of /** @type {const} */ ([[320, 'light'], [1200, 'light'], [1200, 'dark'], [400, 'light'], [400, 'dark']])) {
            await looks(width, scheme);
            await click(`[data-view=${name}]`);
            await until("document.querySelector('#working').hidden && !document.querySelector('main > section:not([hidden]) .asked')");
            await new Promise((resolve) => setTimeout(resolve, 100));
            if (width !== 320) await shot(`${name}-${width}-${scheme}`);
            hold(`${name} fits ${width}`, (await value('document.documentElement.scrollWidth')) <= width);
            const dim = await faint();
            hold(`${name}, ${scheme}: can be read: ${dim}`, dim === '');
        }
    }
}

/** A case in the address: the verdict stands soon after opening. */
async function addresses() {
    await looks(1200, 'light');
    const given = '#table=2004908630929260&first=003040&second=002280&allowance=65535&workspace=32768';
    await send('Page.navigate', { url: 'about:blank' });
    const asked = Date.now();
    await send('Page.navigate', { url: `${page}${given}` });
    hold('the verdict of a case in the address', await verdict('Different'));
    const taken = Date.now() - asked;
    console.log(`a case in the address: the verdict ${taken} ms after opening`);
    if (process.env.CI !== 'true') hold('within half a second', taken < 500);
    hold('its programs', await value("document.querySelector('#first').value === '1 2 1' && document.querySelector('#second').value === '2 3'"));
    await value(`location.hash = ${JSON.stringify(given.replace('002280', '003208'))}`);
    hold('another address in the same page', await verdict('Same'));
    await send('Page.navigate', { url: 'about:blank' });
    await send('Page.navigate', { url: `${page}#table=00&first=zz` });
    hold('rubbish in the address', await says('#case-fault', 'line 2: bytes are two hexadecimal digits each'));
    hold('and the page is as if opened without', await verdict('Same'));
}

const limit = setTimeout(() => {
    console.log('failed: the browser took more than 300 seconds');
    browser.kill('SIGKILL');
    process.exit(1);
}, 300000);
try {
    await run();
} catch (what) {
    hold(String(what), false);
}
clearTimeout(limit);
const ended = new Promise((resolve) => browser.on('exit', resolve));
browser.kill();
await ended;
rmSync(profile, { recursive: true, force: true, maxRetries: 5 });
if (repeated > 0) console.log(`presses of a button that did not come to it, and were made again: ${repeated}`);
console.log(`${passed} passed, ${failed} failed`);
process.exit(failed > 0 ? 1 : 0);
