/** The view Reverse: a reversing word by word, what is left to run after a program, and the ways to lay it. */
import { explained, library } from './calling.mjs';
import { marked } from './compare_view.mjs';
import { escaped } from './drawing.mjs';
import { programOf } from './programs.mjs';
import { steps, undoing } from './reversing.mjs';
import { $, answers, ask, counted, encoded, moves, number, put, shown, state } from './state.mjs';
import { tableParts } from './tables.mjs';

/** @typedef {import('./state.mjs').Table} Table */
/** @typedef {import('./state.mjs').Program} Program */

export async function reverse() {
    const own = state.table;
    const current = ask('reverse');
    const program = await programOf(encoded($('program').value), own);
    if (!current()) return;
    $('program-fault').textContent = program.fault ?? '';
    $('program').setAttribute('aria-invalid', String(program.fault !== undefined));
    if (!own || program.fault !== undefined) {
        for (const id of answers.reverse) put(id, '');
        return;
    }
    const { image, word } = /** @type {Program} */ (program);
    const left = $('left').checked;
    const call = left ? 'leftReverse' : 'reverse';
    const told = await library.call(call, own.image, image, state.limits);
    const why = told.answered ? '' : await explained(told, own, { call, program: image });
    if (!current()) return;
    if (told.answered) {
        const [n, d] = [moves(told.numerator), moves(told.denominator)];
        const field = (/** @type {string} */ name, /** @type {string | number} */ said) => `<dt>${name}</dt><dd class="word">${said}</dd>`;
        put('fraction', `<dl>${field('Numerator', shown(n))}${field('Denominator', shown(d))}${field('Steps', number(told.steps))}</dl>`);
        put('steps', wordByWord(own, word, left, told.steps, left ? [...undoing(d), ...n] : [...n, ...undoing(d)]));
    } else {
        put('fraction', `<p class="told bad">${escaped(why)}</p>`);
        put('steps', '');
    }
    if (word.some((move) => move < 0)) {
        put('remainder', '<p>What is left to run, and the ways to lay it, are told of programs without back moves.</p>');
        put('ways', '');
        return;
    }
    await showRemainder(own, image, current);
    if (!current()) return;
    const ways = await library.call('ways', own.image, image);
    const reason = ways.answered ? '' : await explained(ways, own);
    if (!current()) return;
    const line = (/** @type {Uint8Array} */ way) => `<li>${marked(moves(way), undefined, 240)}</li>`;
    const more = ways.answered && ways.count > 500 ? '<p>The first 500 are shown.</p>' : '';
    const list = () => `${more}<ol class="words" tabindex="0" aria-label="Ways to lay it">${ways.words.slice(0, 500).map(line).join('')}</ol>`;
    if (ways.answered) put('ways', `<h3>Ways to lay it: ${number(ways.count)}</h3>${list()}`);
    else put('ways', `<h3>Ways to lay it</h3><p class="told bad">${escaped(reason)}</p>`);
}

/**
 * The word after each step, where they end as the library says.
 * @param {Table} own @param {number[]} word @param {boolean} left @param {number} count the library's steps @param {number[]} end its last word
 */
function wordByWord(own, word, left, count, end) {
    const head = '<h3>Word by word</h3>';
    if (count > 1000) return `${head}<p>The words are shown of up to 1,000 steps.</p>`;
    const words = steps(tableParts(own.plain), word, left, 1000);
    if (words.length !== count + 1 || words[count].word.join() !== end.join()) {
        return `${head}<p class="bad">The page's words do not end as the library says, so that they are not shown. The answer is the library's.</p>`;
    }
    const lines = words.map(({ word, at }) => `<li>${marked(word, at, at === undefined ? 60 : 2)}</li>`).join('');
    return `${head}<p>The two moves that are replaced next are marked.</p><ol class="words" start="0" tabindex="0" aria-label="Word by word">${lines}</ol>`;
}

/** @param {Table} own @param {Uint8Array} done @param {() => boolean} current */
async function showRemainder(own, done, current) {
    const pattern = await programOf(encoded($('second').value), own);
    const rest = pattern.image ? await library.call('remainder', own.image, done, pattern.image, state.limits) : undefined;
    const why = !rest ? `the pattern has a fault: ${pattern.fault}` : rest.answered ? '' : await explained(rest, own);
    if (!current()) return;
    const left = rest?.moves && (rest.moves.length > 0 ? moves(rest.moves).join(' ') : 'no move: the pattern is laid');
    const said = why || left || 'none: no moves finish the pattern';
    const count = rest?.answered ? `, ${counted(rest.steps, 'step')}` : '';
    put('remainder', `<h3>Left to run of the pattern of Compare, after this program${count}</h3><p class="${why ? 'told bad' : 'word'}">${escaped(said)}</p>`);
}
