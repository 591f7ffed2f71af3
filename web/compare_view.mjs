/** The view Compare: the verdict, the chain, or what is left of both programs and where their beds differ. */
import { bedDifferences, readBed } from './beds.mjs';
import { explained, library, refusedText } from './calling.mjs';
import { caseAddress } from './cases.mjs';
import { escaped } from './drawing.mjs';
import { bothPrograms, missing } from './programs.mjs';
import { entriesOf, swapped, undoing } from './reversing.mjs';
import { $, ask, counted, keepAddress, moves, number, plainOf, put, shown, state } from './state.mjs';
import { tableParts } from './tables.mjs';

/** @typedef {import('./state.mjs').Table} Table */
/** @typedef {import('./state.mjs').Program} Program */

/**
 * A word with a part of it marked; of a long one only what stands around that part, or its first moves.
 * @param {number[]} word @param {number | undefined} at @param {number} length
 */
export function marked(word, at, length) {
    if (word.length === 0) return '<span class="word">the empty word</span>';
    const near = 60;
    const [from, to] = word.length <= 300 ? [0, word.length] : [Math.max((at ?? 0) - near, 0), Math.min((at ?? 0) + length + near, word.length)];
    const part = (/** @type {number} */ one, /** @type {number} */ two) => word.slice(one, two).join(' ');
    const left = from > 0 ? `<i>${counted(from, 'move')} ..</i> ` : '';
    const right = to < word.length ? ` <i>.. ${counted(word.length - to, 'move')}</i>` : '';
    const middle = at === undefined ? part(from, to) : `${part(from, at)} <mark>${part(at, at + length)}</mark> ${part(at + length, to)}`;
    return `<span class="word">${left}${middle}${right}</span>`;
}

export async function compare() {
    const own = state.table;
    const current = ask('compare');
    const both = await bothPrograms(own, current);
    if (!current()) return;
    const none = (/** @type {string} */ why) => {
        put('verdict', `<p class="verdict">No verdict</p><p class="told">${escaped(why)}</p>`);
        put('detail', '');
    };
    if (!both || !own) {
        put('printed', '');
        none(missing());
        return;
    }
    const [first, second] = both;
    keepAddress(caseAddress({ table: own.image, first: first.image, second: second.image, ...state.limits }));
    const signed = [...first.word, ...second.word].some((move) => move < 0);
    const told = await library.call(signed ? 'compareSigned' : 'compare', own.image, first.image, second.image, state.limits);
    const why = told.answered ? '' : await explained(told, own);
    if (!current()) return;
    const line = (/** @type {string} */ name, /** @type {number[]} */ word) =>
        `<p><b>${name}</b>, ${counted(word.length, 'move')}: <span class="word">${shown(word)}</span></p>`;
    put('printed', line('Log', first.word) + line('Pattern', second.word));
    if (!told.answered) {
        none(why);
        return;
    }
    const [kind, verdict] = told.same ? ['good', 'Same'] : ['bad', 'Different'];
    const way = signed ? 'of swaps, and of moves put in or taken out beside their undoing,' : 'of swaps';
    const meaning = told.same
        ? `The log lays the same cord as the pattern: a chain ${way} leads from one to the other.`
        : `The log does not lay the same cord as the pattern: no chain ${way} leads from one to the other.`;
    const by = signed
        ? `The programs have back moves, so that compare_signed decided: ${told.steps[0]} and ${told.steps[1]} steps.`
        : `${counted(told.steps, 'step')}.`;
    put('verdict', `<p class="verdict ${kind}">${verdict}</p><p>${meaning} ${by}</p>`);
    if (!told.same) await showDifference(own, first, second, signed, current);
    else if (signed) put('detail', '<p>A chain is listed for programs without back moves.</p>');
    else await showChain(own, first, second, current);
}

/** So many words of a chain are shown at most. */
const MOST_WORDS = 2000;

/** @param {Table} own @param {Program} first @param {Program} second @param {() => boolean} current */
async function showChain(own, first, second, current) {
    const chained = await library.call('chain', own.image, first.image, second.image, state.limits);
    if (!current()) return;
    if (!chained.answered || !chained.same) {
        put('detail', `<p class="told bad">The chain: ${escaped(refusedText(chained))}</p>`);
        return;
    }
    const parts = tableParts(own.plain);
    const entries = entriesOf(chained.bytes, parts.moves);
    const whole = entries.length < MOST_WORDS;
    const words = [];
    let word = first.word;
    let joins = true;
    for (const entry of entries.slice(0, MOST_WORDS)) {
        const next = swapped(parts, word, entry);
        joins &&= next !== undefined;
        if (!next) break;
        words.push(marked(word, entry[0], next.length));
        word = next.word;
    }
    if (whole) {
        words.push(marked(word, undefined, 60));
        joins &&= word.join() === second.word.join();
    }
    if (!joins) {
        put('detail', '<p class="bad">The page could not follow the chain, so that its words are not shown. The verdict is not touched by it.</p>');
        return;
    }
    const more = whole ? '' : ` The first ${number(MOST_WORDS)} words are shown.`;
    put(
        'detail',
        `<h3>The chain: ${counted(entries.length, 'swap')}</h3><p>In each word the side that is swapped next is marked.${more}</p>` +
            '<div class="row"><button type="button" id="back">Back</button><button type="button" id="forward">Forward</button>' +
            '<span id="chain-at"></span></div>' +
            `<ol class="words" start="0" tabindex="0" aria-label="The words of the chain">${words.map((line) => `<li>${line}</li>`).join('')}</ol>`,
    );
    const items = [...$('detail').querySelectorAll('li')];
    let at = 0;
    const go = (/** @type {number} */ to) => {
        items[at].removeAttribute('aria-current');
        at = Math.min(Math.max(to, 0), items.length - 1);
        items[at].setAttribute('aria-current', 'step');
        // Only the list is scrolled, and not the page with it.
        const list = items[at].parentElement;
        const [inside, around] = [items[at].getBoundingClientRect(), list.getBoundingClientRect()];
        if (inside.top < around.top) list.scrollTop -= around.top - inside.top;
        if (inside.bottom > around.bottom) list.scrollTop += inside.bottom - around.bottom;
        $('chain-at').textContent = `word ${at} of ${items.length - 1}`;
        [$('back').disabled, $('forward').disabled] = [at === 0, at === items.length - 1];
    };
    $('back').onclick = () => go(at - 1);
    $('forward').onclick = () => go(at + 1);
    $('detail').querySelector('.words').onkeydown = (/** @type {KeyboardEvent} */ event) => {
        const to = { ArrowUp: at - 1, ArrowLeft: at - 1, ArrowDown: at + 1, ArrowRight: at + 1, Home: 0, End: items.length - 1 }[event.key];
        if (to === undefined) return;
        event.preventDefault();
        go(to);
    };
    go(0);
}

/** What is left of two programs that are different. @param {Table} own @param {Program} first @param {Program} second @param {boolean} signed */
async function leftOver(own, first, second, signed) {
    const word = [...undoing(first.word), ...second.word];
    if (word.length > 4095) return 'N and D are not shown: both programs together have more than 4,095 moves.';
    const packed = await library.call('packProgram', own.image, plainOf(word));
    const reversed = packed.answered ? await library.call('reverse', own.image, packed.bytes, state.limits) : packed;
    if (!reversed.answered) {
        const why = await explained(reversed, own, { call: 'reverse', program: packed.bytes });
        return `There are no N and D of the undoing of the log, followed by the pattern: ${escaped(why)}`;
    }
    const [n, d] = [reversed.numerator, reversed.denominator].map((side) => `<span class="word">${shown(moves(side))}</span>`);
    return signed
        ? `The undoing of the log, followed by the pattern, is reversed to N = ${n} and D = ${d}.`
        : `Of the pattern is left, after the log, N = ${n}. Of the log is left, after the pattern, D = ${d}.`;
}

/** @param {Table} own @param {Program} first @param {Program} second @param {boolean} signed @param {() => boolean} current */
async function showDifference(own, first, second, signed, current) {
    let text = `<p class="told">${await leftOver(own, first, second, signed)}</p>`;
    const [one, two] = [await library.call('bed', own.image, first.image), await library.call('bed', own.image, second.image)];
    // 15 is of a table that has no bed.
    if (one.answered && two.answered) {
        const differences = bedDifferences(readBed(one.bytes), readBed(two.bytes));
        const line = (/** @type {any[]} */ [what, left, right]) => `<tr><td>${what}</td><td>${left}</td><td>${right}</td></tr>`;
        const head = '<thead><tr><th></th><th>Log</th><th>Pattern</th></tr></thead>';
        text +=
            differences.length === 0
                ? '<p>Both leave equal beds, though the programs are not the same.</p>'
                : '<h3>Where the beds differ</h3><div class="scroll" tabindex="0" role="region" aria-label="Where the beds differ">' +
                  `<table class="small">${head}<tbody>${differences.map(line).join('')}</tbody></table></div>`;
    }
    if (current()) put('detail', text);
}
