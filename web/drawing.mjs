/**
 * The braid of a program as strands from top to bottom (SVG), a colour for each bobbin. Nothing of it is proved: which bobbin crosses which follows from the
 * moves alone, and the totals that stand beside a drawing are the library's.
 */

/** @typedef {{row: number, from: number, to: number, over: boolean}} Crossing */

/**
 * The crossings of each bobbin, and where each stands at the end. A move's number is its left place; a back move is negative.
 * @param {number[]} moves
 * @param {number} bobbins
 * @returns {{crossings: Crossing[][], places: number[]}} places: the bobbin at each place, from 0
 */
export function follow(moves, bobbins) {
    const places = Array.from({ length: bobbins }, (_, k) => k);
    /** @type {Crossing[][]} */
    const crossings = places.map(() => []);
    moves.forEach((move, row) => {
        const left = Math.abs(move) - 1;
        const [one, two] = [places[left], places[left + 1]];
        // Forward, the strand that goes to the right passes over.
        crossings[one].push({ row, from: left, to: left + 1, over: move > 0 });
        crossings[two].push({ row, from: left + 1, to: left, over: move < 0 });
        [places[left], places[left + 1]] = [two, one];
    });
    return { crossings, places };
}

/** Red, green and blue, from 0 to 1, of a hue and a lightness. @param {number} hue @param {number} lightness */
function shade(hue, lightness) {
    const reach = 0.75 * Math.min(lightness, 1 - lightness);
    return [0, 8, 4].map((turn) => {
        const k = (turn + hue / 30) % 12;
        return lightness - reach * Math.max(-1, Math.min(k - 3, 9 - k, 1));
    });
}

/** How light a colour is to the eye: the luminance of WCAG 2. @param {number[]} parts */
export function luminance(parts) {
    const [red, green, blue] = parts.map((part) => (part <= 0.03928 ? part / 12.92 : ((part + 0.055) / 1.055) ** 2.4));
    return 0.2126 * red + 0.7152 * green + 0.0722 * blue;
}

/** @type {Map<string, string>} */
const known = new Map();

/**
 * The colour of a bobbin, from 0: hues far from each other for neighbours. The hue of the eighth bobbin after one is near to it, so that it is lighter or
 * darker. All stand out from the ground, and numbers in the ground's colour can be read on them.
 * @param {number} bobbin @param {boolean} [dark] on a dark ground
 */
export function colour(bobbin, dark = false) {
    const key = `${bobbin} ${dark}`;
    const hue = (bobbin * 137) % 360;
    const wanted = bobbin % 16 >= 8 ? (dark ? 0.62 : 0.06) : dark ? 0.33 : 0.17;
    let [low, high] = [0, 1];
    for (let k = 0; k < 20 && !known.has(key); k++) {
        const middle = (low + high) / 2;
        if (luminance(shade(hue, middle)) < wanted) low = middle;
        else high = middle;
    }
    const digits = (/** @type {number} */ part) => Math.round(255 * part).toString(16).padStart(2, '0');
    if (!known.has(key)) known.set(key, `#${shade(hue, low).map(digits).join('')}`);
    return known.get(key) ?? '';
}

const GAP = 34;
const ROW = 26;
const MARGIN = 24;
/** Left of the strands stand each move's number and the move. */
const LEFT = 84;

/** @param {number} place */
const x = (place) => LEFT + MARGIN + place * GAP;
/** Where the rows of a drawing begin, from its top. @param {number} row */
export const y = (row) => MARGIN + row * ROW;

/** The path of one crossing. @param {Crossing} crossing */
function curve({ row, from, to }) {
    const middle = y(row) + ROW / 2;
    return `M${x(from)} ${y(row)}C${x(from)} ${middle} ${x(to)} ${middle} ${x(to)} ${y(row + 1)}`;
}

/** So many rows are drawn together, so that a browser paints only what is seen of a long program; before them the bobbins' numbers stand on their strands. */
const TOGETHER = 20;

/** @typedef {{background?: string, text?: string, title?: string, dark?: boolean}} Looks */

/**
 * The bobbins' numbers on their strands, before a row.
 * @param {number[]} places the bobbin at each place, from 0 @param {number} row @param {Looks} looks
 */
export function names(places, row, { background = 'white', dark = false } = {}) {
    const name = (/** @type {number} */ bobbin, /** @type {number} */ place) =>
        `<circle cx="${x(place)}" cy="${y(row)}" r="9" fill="${colour(bobbin, dark)}" stroke="${background}" stroke-width="2"/>` +
        `<text x="${x(place)}" y="${y(row) + 4}" fill="${background}" text-anchor="middle" font-size="11" font-weight="700">${bobbin + 1}</text>`;
    return places.map(name).join('');
}

/**
 * The path of a bobbin from one row to another where it is not over another: straight pieces, and the crossings under others.
 * @param {Crossing[]} crossings those between the rows @param {number} place where it stands @param {number} from @param {number} to
 */
function under(crossings, place, from, to) {
    let path = '';
    let at = { row: from, place };
    for (const crossing of crossings) {
        if (crossing.row > at.row) path += `M${x(at.place)} ${y(at.row)}V${y(crossing.row)}`;
        if (!crossing.over) path += curve(crossing);
        at = { row: crossing.row + 1, place: crossing.to };
    }
    return to > at.row ? `${path}M${x(at.place)} ${y(at.row)}V${y(to)}` : path;
}

/**
 * The strands between two rows; those over others stand on a broader line of the background's colour.
 * @param {Crossing[][]} crossings @param {number[]} places @param {number} from @param {number} to @param {Looks} looks
 */
function strands(crossings, places, from, to, { background = 'white', dark = false }) {
    const strand = (/** @type {string} */ path, /** @type {number} */ bobbin) =>
        `<path d="${path}" stroke="${colour(bobbin, dark)}"/>`;
    const lines = crossings.map((own, bobbin) => strand(under(own, places[bobbin], from, to), bobbin));
    const overs = crossings.flatMap((own, bobbin) => {
        const path = own.filter((crossing) => crossing.over).map(curve).join('');
        return path ? [`<path d="${path}" stroke="${background}" stroke-width="11" stroke-linecap="butt"/>${strand(path, bobbin)}`] : [];
    });
    return `<g>${lines.join('')}${overs.join('')}</g>`;
}

/**
 * The moves between two rows, left of the strands, and their numbers.
 * @param {number[]} moves those from a row on @param {number} from that row @param {string} text the colour @param {number} every how often a number stands
 */
function rowNames(moves, from, text, every) {
    const line = (/** @type {number} */ move, /** @type {number} */ k) =>
        ((from + k + 1) % every === 0 ? `<text x="${LEFT - 38}" y="${y(from + k) + ROW / 2 + 4}" opacity="0.7">${from + k + 1}</text>` : '') +
        `<text x="${LEFT - 4}" y="${y(from + k) + ROW / 2 + 4}" font-weight="700">${move}</text>`;
    return `<g fill="${text}" text-anchor="end" font-size="12" stroke="none">${moves.map(line).join('')}</g>`;
}

/**
 * The drawing of a program.
 * @param {number[]} moves
 * @param {number} bobbins
 * @param {Looks} [looks]
 */
export function drawing(moves, bobbins, looks = {}) {
    const { background = 'white', text = 'black', title = '' } = looks;
    const { crossings, places } = follow(moves, bobbins);
    // A long drawing has fewer numbers, so that it is soon there.
    const every = moves.length > 200 ? 5 : 1;
    const [width, height] = [LEFT + 2 * MARGIN + (bobbins - 1) * GAP, 2 * MARGIN + moves.length * ROW];
    // Where each bobbin stands, and how many of its crossings are drawn.
    const here = crossings.map((_, bobbin) => ({ place: bobbin, drawn: 0 }));
    const parts = [];
    const named = [];
    for (let from = 0; from < Math.max(moves.length, 1); from += TOGETHER) {
        const to = Math.min(from + TOGETHER, moves.length);
        /** @type {number[]} */
        const standing = [];
        here.forEach(({ place }, bobbin) => (standing[place] = bobbin));
        const stood = here.map(({ place }) => place);
        const between = crossings.map((own, bobbin) => {
            const first = here[bobbin].drawn;
            let last = first;
            while (last < own.length && own[last].row < to) last++;
            here[bobbin] = { place: last > first ? own[last - 1].to : here[bobbin].place, drawn: last };
            return own.slice(first, last);
        });
        parts.push(strands(between, stood, from, to, looks) + rowNames(moves.slice(from, to), from, text, every));
        named.push(names(standing, from, looks));
    }
    const first = title ? `<title>${escaped(title)}</title>` : '';
    return (
        `<svg xmlns="http://www.w3.org/2000/svg" width="${width}" height="${height}" viewBox="0 0 ${width} ${height}" role="img" font-family="sans-serif">` +
        `${first}<rect width="100%" height="100%" fill="${background}"/><g fill="none" stroke-width="5" stroke-linecap="round">${parts.join('')}</g>` +
        `${named.join('')}${names(places, moves.length, looks)}</svg>`
    );
}

/** A text as markup has it. @param {string} text */
export function escaped(text) {
    return text.replace(/[&<>"]/g, (character) => ({ '&': '&amp;', '<': '&lt;', '>': '&gt;', '"': '&quot;' })[character] ?? '');
}
