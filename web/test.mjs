/**
 * The JavaScript binding: the conformity vectors through its raw calls, and each typed call on cases of specification 10; tables as text, on the files that the
 * tool's tests read, too; drawings; cases as text, and CSV.
 * Usage: node web/test.mjs, after sh web/build.sh. The last line is 'N passed, M failed'.
 */
import { readFileSync, readdirSync } from 'node:fs';
import { CALLS, TEXTS, load, trayOf } from '../target/web/braid.mjs';
import { bedDifferences, readBed } from './beds.mjs';
import { caseAddress, caseText, csv, readAddress, readCase, readPasted } from './cases.mjs';
import { colour, drawing, follow, luminance } from './drawing.mjs';
import { explain, explainText } from './explaining.mjs';
import { entriesOf, steps, swapped, undoing } from './reversing.mjs';
import { sha256 } from './sha256.mjs';
import { BUILTINS, braidTable, readTable, tableParts, tableText } from './tables.mjs';

const top = new URL('..', import.meta.url);
const encode = (/** @type {string} */ text) => new TextEncoder().encode(text);
const read = (/** @type {string} */ name) => readFileSync(new URL(name, top));
const braid = await load(read('target/web/braid.wasm'));
let passed = 0;
let failed = 0;
/** @param {string} label @param {boolean} holds */
const hold = (label, holds) => {
    if (holds) passed++;
    else {
        failed++;
        if (failed <= 20) console.log(`failed: ${label}`);
    }
};
const same = (/** @type {ArrayLike<number>} */ one, /** @type {ArrayLike<number>} */ two) =>
    one.length === two.length && Array.prototype.every.call(one, (byte, k) => byte === two[k]);

// THE VECTORS (conformity/README.md)

/** @param {string} text */
const bytes = (text) =>
    text === '-'
        ? new Uint8Array()
        : Uint8Array.from(
              text.split(' ').flatMap((piece) => {
                  const [byte, count = '1'] = piece.split('*');
                  return Array(Number(count)).fill(parseInt(byte, 16));
              }),
          );

/** The chain that was listed is followed here. @param {Record<string, string>} block @param {Uint8Array} image @param {number} entries */
function leads(block, image, entries) {
    const plain = braid.unpackTable(bytes(block.table));
    const word = (/** @type {string} */ key) => {
        const unpacked = braid.unpackProgram(bytes(block.table), bytes(block[key]));
        return unpacked.answered ? [...unpacked.bytes] : [];
    };
    if (!plain.answered) return false;
    const n = plain.bytes[0];
    const sides = new Map();
    let at = 1 + n;
    for (let a = 1; a <= n; a++) {
        for (let b = a + 1; b <= n; b++) {
            if (plain.bytes[at] === 255) {
                at++;
                continue;
            }
            for (const [x, y] of [
                [a, b],
                [b, a],
            ]) {
                sides.set(`${x} ${y}`, [x, ...plain.bytes.slice(at + 1, at + 1 + plain.bytes[at])]);
                at += 1 + plain.bytes[at];
            }
        }
    }
    let bit = 0;
    const field = (/** @type {number} */ width) => {
        let value = 0;
        for (; width > 0; width--, bit++) value = 2 * value + (((image[bit >> 3] ?? 0) >> (7 - (bit & 7))) & 1);
        return value;
    };
    const width = 32 - Math.clz32(n - 1);
    let here = word('first');
    if (field(16) !== entries) return false;
    for (let k = 0; k < entries; k++) {
        const [offset, a, b] = [field(15), field(width) + 1, field(width) + 1];
        const [old, young] = [sides.get(`${a} ${b}`), sides.get(`${b} ${a}`)];
        if (!old || !same(here.slice(offset, offset + old.length), old)) return false;
        here = [...here.slice(0, offset), ...young, ...here.slice(offset + old.length)];
    }
    return same(here, word('second')) && field(8 * image.length - bit) === 0;
}

/** @param {Record<string, string>} block */
function held(block) {
    const call = CALLS[block.call];
    const keys = Object.keys(block);
    const images = keys.slice(keys.indexOf('memory') + 1, keys.indexOf('memory') + 1 + call.images).map((key) => bytes(block[key]));
    const numbers = (block.numbers ?? block.moves ?? '').split(' ').filter(Boolean).map(BigInt);
    const workspace = Uint8Array.from({ length: Number(block.workspace ?? 0) }, (_, i) => 31 * i + 7);
    const answer = Uint8Array.from({ length: Number(block.answer ?? 0) }, (_, i) => 17 * i + 91);
    const left = braid.raw(block.call, { images, allowance: Number(block.allowance ?? 0), numbers, workspace, answer });
    if (left.result !== Number(block.result) || left.values.join(' ') !== block.values) return false;
    if (!left.images.every((image, k) => same(image, images[k]))) return false;
    if (block.ends && !(block.ends === 'zero' ? left.workspace.every((byte) => byte === 0) : same(left.workspace, workspace))) return false;
    if (block.lists) {
        const [entries, length] = block.lists.split(' ').map(Number);
        return leads(block, left.answer.slice(0, length), entries) && same(left.answer.slice(length), answer.slice(length));
    }
    const written = bytes(block.leaves ?? '-');
    return same(left.answer.slice(0, written.length), written) && same(left.answer.slice(written.length), answer.slice(written.length));
}

const file = process.argv[2] ?? 'conformity/vectors.txt';
const blocks = read(file).toString('ascii').split('\n\n').slice(1, -1);
for (const text of blocks) {
    const block = Object.fromEntries(text.split('\n').map((line) => [line.slice(0, line.indexOf(' ')), line.slice(line.indexOf(' ') + 1)]));
    hold(`the vector ${block.case}`, held(block));
}
hold('vectors are there', blocks.length > 100);

// EACH TYPED CALL

const B = bytes('20 04 90 86 30 92 92 60');
const [first, second, one, two] = ['00 30 40', '00 32 08', '00 10', '00 12'].map(bytes);
/** @param {any} answer @param {any} expected */
const equals = (answer, expected) => JSON.stringify(answer, (_, value) => (value instanceof Uint8Array ? [...value] : value)) === JSON.stringify(expected);
/** @param {string} label @param {any} answer @param {any} expected */
const gives = (label, answer, expected) => hold(`${label}: ${JSON.stringify(answer)}`, equals(answer, expected));
/** @param {number} refused @param {string} kind @param {number[]} moves */
const refused = (refused, kind, moves) => ({ answered: false, refused, place: { kind, moves }, text: TEXTS[refused] });

gives('reverse', braid.reverse(B, bytes('00 5C 28 20')), { answered: true, numerator: [1, 1, 2, 3], denominator: [1, 3, 2], steps: 5 });
gives('reverse, 11', braid.reverse(B, bytes('00 5C 28 20'), { allowance: 4 }), refused(11, 'none', []));
gives('reverse, 13', braid.reverse(B, bytes('00 5C 28 20'), { answer: 6 }), refused(13, 'none', []));
gives('leftReverse', braid.leftReverse(B, bytes('00 21 40')), { answered: true, numerator: [2, 1], denominator: [1, 2], steps: 1 });
gives('enquire', braid.enquire(B, bytes('00 5C 28 20')), { answered: true, numerator: 4, denominator: 3, steps: 5 });
gives('commit', braid.commit(B, bytes('00 5C 28 20'), { numerator: 3, denominator: 4, steps: 5 }), refused(18, 'none', []));
gives('clear', braid.clear(B, { allowance: 4 }), refused(11, 'triple', [1, 2, 3]));
gives('mirrorClear', braid.mirrorClear(B), { answered: true });
gives('mirrorClear, 12', braid.mirrorClear(B, { workspace: 10 }), refused(12, 'mirror', [1, 2, 3]));
gives('compare', braid.compare(B, first, second), { answered: true, same: true, steps: 5 });
gives('compare with itself', braid.compare(B, first, first), { answered: true, same: true, steps: 3 });
gives('compareSigned', braid.compareSigned(B, bytes('00 30 60'), bytes('00 3A 08')), { answered: true, same: true, steps: [4, 1] });
gives('compareSigned, 12', braid.compareSigned(B, one, two, { workspace: 165 }), refused(12, 'set', []));
gives('chain', braid.chain(B, one, two), { answered: true, same: false, steps: 1 });
const chain = braid.chain(B, first, second);
hold('chain, same', chain.answered && chain.same && chain.entries === 1 && chain.steps === 5);
if (chain.answered && chain.same) gives('check', braid.check(B, first, second, chain.bytes), { answered: true, passage: 'joins' });
gives('check, breaks', braid.check(B, second, first, bytes('00 01 00 00 20')), { answered: true, passage: 'breaks', entry: 0 });
gives('remainder', braid.remainder(B, one, first), { answered: true, moves: [2, 1], steps: 1 });
gives('remainder, none', braid.remainder(B, one, two), { answered: true, steps: 1 });
gives('packTable', braid.packTable(Uint8Array.of(2, 1, 8, 255)), { answered: true, bytes: [0x11, 0xc0] });
gives('unpackTable', braid.unpackTable(bytes('11 C0')), { answered: true, bytes: [2, 1, 8, 255] });
gives('packProgram', braid.packProgram(B, Uint8Array.of(131, 1, 130, 1, 2)), { answered: true, bytes: [0x00, 0x5c, 0x28, 0x20] });
gives('unpackProgram', braid.unpackProgram(B, bytes('00 36')), refused(5, 'none', []));
gives('bed', braid.bed(bytes('00'), bytes('00 24'), 1n), { answered: true, bytes: [2, 1, 0, 1] });
gives('ways', braid.ways(B, first), { answered: true, count: 2, words: [[1, 2, 1], [2, 1, 2]] });
gives('ways of nothing', braid.ways(B, bytes('00 00')), { answered: true, count: 1, words: [[]] });
gives('import', braid.import(B, new TextEncoder().encode('-(1 2)^2')), { answered: true, bytes: [130, 129, 130, 129] });
const tray = trayOf([first, bytes('00 18'), one]);
hold('a tray', tray !== undefined && trayOf(Array(65).fill(one)) === undefined);
if (tray) {
    const logs = [{ same: true, steps: 5 }, { refused: 7, text: TEXTS[7] }, { same: false, steps: 0 }];
    gives('tray', braid.tray(B, tray, second), { answered: true, logs });
}
const header = read('include/braid.h').toString();
const texts = header.slice(header.indexOf('texts[] = {'), header.indexOf('};', header.indexOf('texts[] = {'))).split('\n').slice(1, 26);
hold('the sentences of the header', texts.every((line, k) => (TEXTS[k] === undefined ? line.includes('(const char *)0') : line.includes(`"${TEXTS[k]}"`))));

// TABLES AS TEXT (docs/TABLES.md)

const names = (/** @type {string} */ folder) => readdirSync(new URL(folder, top)).filter((name) => name.endsWith('.txt'));
for (const name of names('samples/tables/good')) {
    const { plain } = readTable(read(`samples/tables/good/${name}`));
    const packed = plain && braid.packTable(plain);
    const again = plain && readTable(new TextEncoder().encode(tableText(plain))).plain;
    hold(`text to image to text of ${name}`, !!packed?.answered && !!again && same(plain, again));
}
for (const name of names('samples/tables/bad')) {
    const { faults } = readTable(read(`samples/tables/bad/${name}`));
    const told = (faults ?? []).map((fault) => `${fault.line}:${fault.column}: ${fault.what}\n`).join('');
    hold(`what is told of ${name}: ${told}`, told === read(`samples/tables/bad/${name.replace('.txt', '.errors')}`).toString('latin1'));
}
for (let n = 1; n <= 16; n++) {
    const packed = braid.packTable(braidTable(n));
    hold(`the braid table of ${n} moves`, packed.answered && braid.bed(packed.bytes, bytes('00 00')).answered);
    if (packed.answered) {
        const unpacked = braid.unpackTable(packed.bytes);
        hold('its text', unpacked.answered && tableText(unpacked.bytes) === tableText(braidTable(n)));
    }
}

// The tables that the page has are the samples'.
for (const name of readdirSync(new URL('samples', top)).filter((name) => name.endsWith('.table'))) {
    const named = name === 'braid3.table' ? 'braid table of 3 moves' : name.replace('.table', ':');
    const plain = readTable(encode(BUILTINS.find((builtin) => builtin.name.startsWith(named))?.text ?? '')).plain;
    const packed = plain && braid.packTable(plain);
    hold(`the page's table ${named}`, !!packed?.answered && same(packed.bytes, read(`samples/${name}`)));
}
hold('each of them is read', BUILTINS.length === 21 && BUILTINS.every(({ text }) => readTable(encode(text)).plain));

// WHAT HELPS BESIDE A REFUSAL

/** @param {string} text @param {string} told */
const textTold = (text, told) => {
    const imported = braid.import(B, encode(text));
    const said = imported.answered ? 'answered' : explainText(braid, B, encode(text), imported);
    hold(`what is told of ${text.slice(0, 40)}: ${said}`, said === told);
};
textTold('1  2', 'line 1, column 3: a space cannot stand here');
textTold('1 2\n', 'line 1, column 4: the byte 10 cannot stand here');
textTold('(1 2', 'line 1, column 5: the text ends before the pattern does');
textTold('1 x', "line 1, column 3: 'x' cannot stand here");
textTold('1 2^9 (3 4)^0', 'line 1, column 10: the table has 3 moves, and 4 is none');
textTold('1^99 '.repeat(41) + '(2 3)^99', 'line 1, column 213: with what stands here they are passed');
/** @param {string} text @param {any} refusal @param {string} told @param {any} [reversing] @param {any} [limits] */
const refusalTold = (text, refusal, told, reversing, limits = {}) => {
    const packed = braid.packTable(readTable(encode(text)).plain ?? new Uint8Array());
    const said = packed.answered && explain(braid, packed.bytes, limits, refusal(packed.bytes), reversing);
    hold(`what is told of ${text.replace(/\n/g, '; ')}: ${said}`, said === told);
};
const cleared = (/** @type {any} */ limits = {}) => (/** @type {Uint8Array} */ table) => braid.clear(table, limits);
refusalTold('moves 2\n1 2 1 = 2 2\n', cleared(), '1 2 1 weighs 3, 2 2 weighs 2');
refusalTold('moves 3\n1 2 = 2 1\n1 3 = 3 1\n2 1 = 3 1\n', cleared(), 'the triple 1 2 3: (1\\2)\\(1\\3) is 1, (2\\1)\\(2\\3) is the empty word');
refusalTold('moves 2\n1 2 = 2 2\n', (/** @type {Uint8Array} */ table) => braid.mirrorClear(table), 'the relation 1 2 = 2 2 offends');
refusalTold(
    tableText(braidTable(3)),
    cleared({ allowance: 4 }),
    'while the triple 1 2 3 of the table was checked; with a larger allowance the outcome may be another',
    undefined,
    { allowance: 4 },
);
const [endless, pair] = ['samples/endless3.table', 'samples/endless.program'].map(read);
const never = braid.reverse(endless, pair, { workspace: 1 << 24 });
hold('no larger allowance', !never.answered && explain(braid, endless, {}, never) === 'no allowance is larger: the question stays open');
refusalTold(
    tableText(braidTable(3)),
    cleared({ workspace: 10 }),
    'while the triple 1 2 3 of the table was checked; with a larger workspace the outcome may be another',
);
const open2 = 'moves 2\n';
/** @type {[string, 'reverse' | 'leftReverse', number[], string][]} */
const opened = [
    ['reverse', 'reverse', [-1, -1, 1, 2], '-1 2 is met after 1 step, and the pair 1, 2 has no relation'],
    ['leftReverse', 'leftReverse', [1, 2, -2, -2], '1 -2 is met after 1 step, and no relation has sides that end in 2 and 1'],
];
for (const [, call, word, told] of opened) {
    const packed = braid.packProgram(bytes('10 00'), Uint8Array.from(word, (move) => (move < 0 ? 128 - move : move)));
    const program = packed.answered ? packed.bytes : new Uint8Array();
    refusalTold(open2, (/** @type {Uint8Array} */ table) => braid[call](table, program), told, { call, program });
}
const nothing = bytes('00 00');
refusalTold(open2, (/** @type {Uint8Array} */ table) => braid.compareSigned(table, nothing, nothing), 'the pair 1, 2 has no relation');

// BEDS, AND WHERE THEY DIFFER

const bedOf = (/** @type {string} */ text) => {
    const packed = braid.import(B, encode(text));
    const program = packed.answered ? braid.packProgram(B, packed.bytes) : packed;
    const bed = program.answered ? braid.bed(B, program.bytes) : program;
    return readBed(bed.answered ? bed.bytes : new Uint8Array());
};
const after = bedOf('-3 1 -2 1 2');
hold('the bed of specification 6.11', after.places.join() === '4,1,2,3' && after.totals.map(({ total }) => total).join() === '2,0,-1,0,1,-1');
hold('its pairs', after.totals.map(({ pair }) => pair.join(' ')).join() === '1 2,1 3,1 4,2 3,2 4,3 4');
hold('beds that are equal', bedDifferences(bedOf('1 1 2 2'), bedOf('2 2 1 1')).length === 0);
const apart = [['bobbin at place 1', 2, 1], ['bobbin at place 2', 1, 2], ['total of bobbins 1 and 2', 1, 0]];
gives('where beds differ', bedDifferences(bedOf('1'), bedOf('')), apart);

// DRAWINGS: the bobbins at the end are those of the library's bed

for (const word of [[], [1], [-3, 1, -2, 1, 2], Array.from({ length: 400 }, (_, k) => ((k * 7) % 3) + 1)]) {
    const packed = braid.packProgram(B, Uint8Array.from(word, (move) => (move < 0 ? 128 - move : move)));
    const bed = packed.answered ? braid.bed(B, packed.bytes) : packed;
    const { places } = follow(word, 4);
    hold(`the bobbins after ${word.length} moves`, bed.answered && same([...bed.bytes.slice(0, 4)], places.map((bobbin) => bobbin + 1)));
    const svg = drawing(word, 4, { title: 'a < b & c' });
    const curves = svg.match(/C/g)?.length ?? 0;
    // Each crossing has a curve under and one over, which is drawn twice.
    hold(`the drawing of ${word.length} moves: ${curves} curves`, curves === 3 * word.length && svg.includes('a &lt; b &amp; c') && !svg.includes('NaN'));
    // The bobbins' numbers stand on their strands at the start, every 20 moves and at the end.
    const circles = svg.match(/<circle /g)?.length;
    hold(`its ${circles} numbers`, circles === 4 * (Math.ceil(Math.max(word.length, 1) / 20) + 1));
}
const light = (/** @type {string} */ hex) => luminance([1, 3, 5].map((at) => parseInt(hex.slice(at, at + 2), 16) / 255));
for (const [dark, ground] of /** @type {[boolean, string][]} */ ([[false, '#ffffff'], [true, '#16181b']])) {
    const colours = Array.from({ length: 17 }, (_, bobbin) => colour(bobbin, dark));
    const contrast = (/** @type {string} */ hex) => (Math.max(light(hex), light(ground)) + 0.05) / (Math.min(light(hex), light(ground)) + 0.05);
    hold(`17 colours that can be read on ${ground}`, new Set(colours).size === 17 && colours.every((hex) => contrast(hex) >= 4.5));
}

// REVERSINGS WORD BY WORD: the last word and the steps are the library's

const parts = tableParts(braidTable(3));
/** @type {[number[], boolean][]} */
const reversed = [[[-3, 1, -2, 1, 2], false], [[2, 1, -2, 1, -3], true], [[1, -2, 3, -1, 2], false], [[], true]];
for (const [word, left] of reversed) {
    const packed = braid.packProgram(B, Uint8Array.from(word, (move) => (move < 0 ? 128 - move : move)));
    const told = packed.answered ? braid[left ? 'leftReverse' : 'reverse'](B, packed.bytes) : packed;
    const words = steps(parts, word, left, 1000);
    const last = words[words.length - 1].word;
    const [n, d] = told.answered ? [[...told.numerator], undoing([...told.denominator])] : [[], []];
    const agrees = told.answered && words.length === told.steps + 1 && same(last, left ? [...d, ...n] : [...n, ...d]);
    hold(`the words of ${word} from the ${left ? 'end' : 'start'}`, agrees);
}
hold('an open pair ends them', steps(tableParts(Uint8Array.of(2, 1, 1, 255)), [-1, 2], false, 9).length === 1);
const entry = entriesOf(bytes('00 01 00 00 20'), 3);
hold('an entry', entry.join() === '0,1,2' && swapped(parts, [1, 2, 1, 3], entry[0])?.word.join() === '2,1,2,3');
hold('SHA-256', sha256(encode('abc')) === 'ba7816bf8f01cfea414140de5dae2223b00361a396177a9cb410ff61f20015ad');
hold('SHA-256 of 63 bytes', sha256(encode('a'.repeat(63))) === '7d3e74a05d7db15bce4ad9ec0658ea98e3f06eeecf16b4c6fff2da457ddc2f34');
hold('SHA-256 of nothing', sha256(new Uint8Array()) === 'e3b0c44298fc1c149afbf4c8996fb92427ae41e4649b934ca495991b7852b855');

// CASES AS TEXT, AND CSV

const given = { table: B, first, second: new Uint8Array(), allowance: 65535, workspace: 0 };
for (const back of [readCase(caseText(given)), readAddress('#' + caseAddress(given)), readCase(caseText(given).replace(/\n/g, '\r\n\n'))]) {
    hold('a case that is copied and pasted back', !!back.case && caseText(back.case) === caseText(given) && same(back.case.table, B));
}
for (const [text, what] of [
    ['', 'missing: table, first, second, allowance, workspace'],
    [caseText(given) + 'table 00\n', 'line 6: table stands twice'],
    [caseText(given).replace('65535', '65536'), 'line 4: allowance is a number from 0 to 65535'],
    [caseText(given).replace('first 003040', 'first 00304'), 'line 2: bytes are two hexadecimal digits each'],
    ['<script>', "line 1: '<script>' is no part of a case: the parts are table, first, second, allowance, workspace"],
]) {
    hold(`a case with a fault: ${readCase(text).fault}`, readCase(text).fault === what);
}
for (const line of [caseText(given).replace(/\n/g, ' '), caseText(given).replace(/\n/g, '')]) {
    const back = readPasted(line);
    hold('a case from a field of one line', !!back.case && caseText(back.case) === caseText(given));
}
hold('a case of many lines, pasted', readPasted(caseText(given)).case !== undefined);
hold('a long fault is cut', (readCase('x'.repeat(1e6)).fault ?? '').length < 200);
hold('CSV', csv([['log', 'steps'], ['a "b", c\n', 5]]) === 'log,steps\r\n"a ""b"", c\n",5\r\n');

console.log(`${passed} passed, ${failed} failed`);
process.exitCode = failed > 0 ? 1 : 0;
