/** The view Bed: the braids of both programs, and their beds after so many moves. */
import { readBed } from './beds.mjs';
import { library, refusedText } from './calling.mjs';
import { colour, drawing, names, y } from './drawing.mjs';
import { bothPrograms, missing } from './programs.mjs';
import { $, counted, put, save, state, turn } from './state.mjs';
import { tableParts } from './tables.mjs';

/** @typedef {import('./state.mjs').Program} Program */

export async function bed() {
    const own = state.table;
    const current = turn('bed');
    const both = await bothPrograms(own, current);
    if (!current()) return;
    const none = (/** @type {string} */ why) => {
        $('bed-fault').textContent = why;
        $('bed-count').textContent = '';
        $('bed-at').disabled = true;
        delete $('beds').dataset.key;
        put('beds', '');
    };
    if (!own || !both) {
        none(`No bed: ${missing()}.`);
        return;
    }
    const bobbins = tableParts(own.plain).moves + 1;
    const longest = Math.max(...both.map((program) => program.word.length));
    $('bed-at').max = String(longest);
    const at = Math.min(Number($('bed-at').value), longest);
    const beds = [];
    for (const program of both) beds.push(await library.call('bed', own.image, program.image, BigInt(at)));
    if (!current()) return;
    const refused = beds.find((told) => !told.answered);
    if (refused) {
        none(`No bed: ${refusedText(refused)}.`);
        return;
    }
    $('bed-fault').textContent = '';
    $('bed-at').disabled = false;
    $('bed-count').textContent = `${at} of ${longest}`;
    const style = getComputedStyle(document.body);
    const dark = matchMedia('(prefers-color-scheme: dark)').matches;
    const looks = { background: style.backgroundColor, text: style.color, dark };
    const key = both.map((program) => program.word.join()).join('|') + bobbins + style.backgroundColor;
    if ($('beds').dataset.key !== key) {
        $('beds').dataset.key = key;
        const panel = (/** @type {Program} */ program, /** @type {string} */ name) =>
            `<div><div class="row"><h3>${name}: ${counted(program.word.length, 'move')}</h3>` +
            `<button type="button" data-svg="${name}">Save as SVG</button></div>` +
            `<div class="bed"><div class="drawing" tabindex="0" role="region" aria-label="The braid of the ${name.toLowerCase()}">` +
            `${drawing(program.word, bobbins, { ...looks, title: name })}</div><div class="state"></div></div></div>`;
        put('beds', panel(both[0], 'Log') + panel(both[1], 'Pattern'));
        for (const button of $('beds').querySelectorAll('[data-svg]')) button.onclick = () => saveDrawing(button);
    }
    $('beds').classList.remove('asked');
    [...$('beds').children].forEach((element, k) => {
        const { places, totals } = readBed(beds[k].bytes);
        const here = Math.min(at, both[k].word.length);
        const chip = (/** @type {number} */ bobbin) => `<li style="background: ${colour(bobbin - 1, dark)}">${bobbin}</li>`;
        const total = (/** @type {any} */ { pair, total }) => `<li>${pair[0]} and ${pair[1]}: <b>${total > 0 ? '+' : ''}${total}</b></li>`;
        const crossed = totals.filter(({ total }) => total !== 0);
        element.querySelector('.state').innerHTML =
            `<h3>After ${counted(here, 'move')}</h3><p>Bobbins, from place 1 on:</p><ol class="chips">${places.map(chip).join('')}</ol>` +
            `<p>Totals of two bobbins${crossed.length > 0 ? ' that are not 0:' : ': all are 0.'}</p><ul class="totals">${crossed.map(total).join('')}</ul>`;
        const svg = element.querySelector('svg');
        svg.querySelector('.cursor')?.remove();
        svg.insertAdjacentHTML(
            'beforeend',
            `<g class="cursor"><path d="M0 ${y(here)}H${svg.getAttribute('width')}" stroke="${style.color}" stroke-dasharray="4 4"/>` +
                `${names(places.map((bobbin) => bobbin - 1), here, looks)}</g>`,
        );
        const box = element.querySelector('.drawing');
        box.scrollTop = y(here) - box.clientHeight / 2;
    });
}

/** Saves the drawing beside a button, without the line that the slider moves. @param {any} button */
function saveDrawing(button) {
    const svg = button.parentElement.parentElement.querySelector('svg').cloneNode(true);
    svg.querySelector('.cursor')?.remove();
    save(`${button.dataset.svg.toLowerCase()}.svg`, new XMLSerializer().serializeToString(svg), 'image/svg+xml');
}
