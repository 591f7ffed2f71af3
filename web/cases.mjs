/** A case (table, programs, limits) as text that can be copied, pasted back, and put into an address; and rows as CSV. */

/** @typedef {{table: Uint8Array, first: Uint8Array, second: Uint8Array, allowance: number, workspace: number}} Case */

const IMAGES = /** @type {const} */ (['table', 'first', 'second']);
const NUMBERS = /** @type {const} */ (['allowance', 'workspace']);
/** No reversing of 65,535 steps needs a workspace as long: each step adds 28 moves at most. */
export const LARGEST = { allowance: 65535, workspace: 2 ** 24 };

/** @param {Uint8Array} bytes */
const digits = (bytes) => Array.from(bytes, (byte) => byte.toString(16).padStart(2, '0')).join('');

/** A line for each part: bytes in hexadecimal, numbers in decimal. @param {Case} given */
export function caseText(given) {
    return [...IMAGES.map((key) => `${key} ${digits(given[key])}`.trimEnd()), ...NUMBERS.map((key) => `${key} ${given[key]}`)].join('\n') + '\n';
}

/**
 * The case of a text, or what is wrong with it.
 * @param {string} text
 * @returns {{case: Case, fault: undefined} | {case: undefined, fault: string}}
 */
export function readCase(text) {
    /** @type {Record<string, any>} */
    const found = {};
    const lines = text.split('\n').filter((line) => line.trim() !== '');
    for (const [k, line] of lines.entries()) {
        const [key, value = '', ...more] = line.trim().split(/ +/);
        const wrong = (/** @type {string} */ what) => ({ case: undefined, fault: `line ${k + 1}: ${what}` });
        if (key in found) return wrong(`${key} stands twice`);
        if (more.length > 0) return wrong('one value follows a key');
        if (IMAGES.includes(/** @type {any} */ (key))) {
            if (!/^([0-9a-fA-F]{2})*$/.test(value)) return wrong('bytes are two hexadecimal digits each');
            found[key] = Uint8Array.from(value.match(/../g) ?? [], (byte) => parseInt(byte, 16));
        } else if (key === 'allowance' || key === 'workspace') {
            if (!/^[0-9]{1,10}$/.test(value) || Number(value) > LARGEST[key]) return wrong(`${key} is a number from 0 to ${LARGEST[key]}`);
            found[key] = Number(value);
        } else return wrong(`'${key.length > 20 ? `${key.slice(0, 20)}..` : key}' is no part of a case: the parts are ${[...IMAGES, ...NUMBERS].join(', ')}`);
    }
    const missing = [...IMAGES, ...NUMBERS].filter((key) => !(key in found));
    if (missing.length > 0) return { case: undefined, fault: `missing: ${missing.join(', ')}` };
    return { case: /** @type {Case} */ (found), fault: undefined };
}

/** A case that went through a field of one line, which takes line ends away. @param {string} text */
export function readPasted(text) {
    return readCase(text.trim().includes('\n') ? text : text.replace(/\s*(table|first|second|allowance|workspace)/g, '\n$1'));
}

/** The part of an address behind its #. @param {Case} given */
export function caseAddress(given) {
    return caseText(given).trimEnd().replace(/\n/g, '&').replace(/ /g, '=');
}

/** @param {string} address */
export function readAddress(address) {
    return readCase(address.replace(/^#/, '').replace(/&/g, '\n').replace(/=/g, ' '));
}

/** Rows as CSV (RFC 4180). @param {(string | number)[][]} rows */
export function csv(rows) {
    const field = (/** @type {string | number} */ value) => (/[",\r\n]/.test(String(value)) ? `"${String(value).replace(/"/g, '""')}"` : String(value));
    return rows.map((row) => row.map(field).join(',') + '\r\n').join('');
}
