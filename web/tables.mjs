/**
 * Tables as text (docs/TABLES.md): read into the plain form of specification 5.7, which the library packs, and written from it. The tool reads the same
 * grammar, and the files of samples/tables hold both to it.
 */

/** @typedef {{line: number, column: number, what: string}} Fault */
/** @typedef {{column: number, text: string}} Piece */

/** The pieces of a line between blanks; an equals sign is one of its own. @param {string} line @returns {Piece[]} */
function pieces(line) {
    const comment = line.indexOf('#');
    const text = comment < 0 ? line : line.slice(0, comment);
    return [...text.matchAll(/=|[^ \t=]+/g)].map((found) => ({ column: found.index + 1, text: found[0] }));
}

/** A table text while it is read. */
class Reading {
    constructor() {
        this.line = 0;
        /** @type {number | undefined} */
        this.moves = undefined;
        /** @type {number[] | undefined} */
        this.weights = undefined;
        /** @type {{pair: string, there: number[], back: number[], line: number}[]} */
        this.relations = [];
        /** @type {Fault[]} */
        this.faults = [];
    }

    /** @param {number} column @param {string} what */
    fault(column, what) {
        this.faults.push({ line: this.line, column, what });
    }

    /** A number within bounds; another is a fault. @param {Piece} piece @param {number} least @param {number} most @param {string} what */
    number(piece, least, most, what) {
        const number = /^(0|[1-9][0-9]*)$/.test(piece.text) ? Number(piece.text) : NaN;
        if (number >= least && number <= most) return number;
        this.fault(piece.column, `${what} is a number from ${least} to ${most}, and not '${piece.text}'`);
        return undefined;
    }

    /** @param {Piece[]} found */
    firstLine(found) {
        this.moves = 16;
        if (found[0].text !== 'moves') {
            this.fault(found[0].column, "the first line is 'moves' and the number of moves");
            // What follows is read as if there were as many moves as may be, so that its own errors are told.
            this.otherLine(found);
        } else if (found.length === 1) {
            this.fault(found[0].column, 'the number of moves is missing');
        } else if (found.length > 2) {
            this.fault(found[2].column, "one number follows 'moves'");
        } else {
            this.moves = this.number(found[1], 1, 16, 'the number of moves') ?? 16;
        }
    }

    /** @param {Piece[]} found */
    otherLine(found) {
        if (found[0].text === 'moves') this.fault(found[0].column, "'moves' stands in the first line, and once");
        else if (found[0].text === 'weights') this.weightsLine(found);
        else this.relation(found);
    }

    /** @param {Piece[]} found */
    weightsLine(found) {
        if (this.weights) return this.fault(found[0].column, "'weights' stands once");
        if (this.relations.length > 0) this.fault(found[0].column, "'weights' stands before the relations");
        this.weights = found.slice(1).map((piece) => this.number(piece, 1, 8, 'a weight') ?? 1);
        const moves = this.moves ?? 16;
        if (this.weights.length !== moves) this.fault(found[0].column, `there are ${moves} moves, and ${this.weights.length} weights`);
    }

    /** One side of a relation. @param {Piece[]} found @param {number} at @returns {number[] | undefined} */
    side(found, at) {
        if (found.length === 0) {
            this.fault(at, 'a side has at least one move');
            return undefined;
        }
        if (found.length > 16) this.fault(found[16].column, 'a side has at most 16 moves');
        const side = found.map((piece) => this.number(piece, 1, this.moves ?? 16, 'a move'));
        return side.length > 16 || side.includes(undefined) ? undefined : /** @type {number[]} */ (side);
    }

    /** @param {Piece[]} found */
    relation(found) {
        const equals = found.flatMap((piece, k) => (piece.text === '=' ? [k] : []));
        if (equals.length !== 1) {
            const at = equals.length > 1 ? found[equals[1]].column : found[0].column;
            return this.fault(at, "a relation is two sides with one '=' between them");
        }
        const [middle] = equals;
        const one = this.side(found.slice(0, middle), found[middle].column);
        const two = this.side(found.slice(middle + 1), found[middle].column);
        if (!one || !two) return;
        if (one[0] === two[0]) return this.fault(found[middle + 1].column, 'the sides begin with two different moves, which name the pair');
        const [low, high] = one[0] < two[0] ? [one, two] : [two, one];
        const pair = `${low[0]}, ${high[0]}`;
        const before = this.relations.find((relation) => relation.pair === pair);
        if (before) return this.fault(found[0].column, `the pair ${pair} has a relation in line ${before.line}`);
        this.relations.push({ pair, there: low.slice(1), back: high.slice(1), line: this.line });
    }
}

/**
 * The plain form of a table text, or all that is wrong with it.
 * @param {Uint8Array} bytes
 * @returns {{plain: Uint8Array, faults: undefined} | {plain: undefined, faults: Fault[]}}
 */
export function readTable(bytes) {
    // A character for each byte, so that columns are those of the bytes.
    const text = Array.from(bytes, (byte) => String.fromCharCode(byte)).join('');
    const lines = text.split('\n');
    if (lines[lines.length - 1] === '') lines.pop();
    const reading = new Reading();
    for (const line of lines) {
        reading.line++;
        const found = pieces(line.replace(/\r$/, ''));
        if (found.length > 0) reading.moves === undefined ? reading.firstLine(found) : reading.otherLine(found);
    }
    if (reading.moves === undefined) {
        reading.line = Math.max(reading.line, 1);
        reading.fault(1, "the first line is 'moves' and the number of moves");
    }
    if (reading.faults.length > 0) return { plain: undefined, faults: reading.faults };
    const moves = reading.moves ?? 16;
    const plain = [moves, ...(reading.weights ?? Array(moves).fill(1))];
    for (let a = 1; a <= moves; a++) {
        for (let b = a + 1; b <= moves; b++) {
            const relation = reading.relations.find(({ pair }) => pair === `${a}, ${b}`);
            if (relation) plain.push(relation.there.length, ...relation.there, relation.back.length, ...relation.back);
            else plain.push(255);
        }
    }
    return { plain: Uint8Array.from(plain), faults: undefined };
}

/**
 * A table by its parts, from its plain form, which is sound: the relations in pair order, both sides whole.
 * @param {Uint8Array} plain
 */
export function tableParts(plain) {
    const moves = plain[0];
    const weights = [...plain.slice(1, 1 + moves)];
    /** @type {[number[], number[]][]} */
    const relations = [];
    let at = 1 + moves;
    const side = (/** @type {number} */ first) => {
        const length = plain[at];
        at += 1 + length;
        return [first, ...plain.slice(at - length, at)];
    };
    for (let a = 1; a <= moves; a++) {
        for (let b = a + 1; b <= moves; b++) {
            if (plain[at] === 255) at++;
            else relations.push([side(a), side(b)]);
        }
    }
    return { moves, weights, relations };
}

/** The text of a table: what readTable reads as the same plain form. @param {Uint8Array} plain */
export function tableText(plain) {
    const { moves, weights, relations } = tableParts(plain);
    const lines = relations.map(([one, two]) => `${one.join(' ')} = ${two.join(' ')}\n`);
    return `moves ${moves}\nweights ${weights.join(' ')}\n${lines.join('')}`;
}

/** The plain form of the braid table of so many moves (specification 2.4). @param {number} moves */
export function braidTable(moves) {
    const plain = [moves, ...Array(moves).fill(1)];
    for (let a = 1; a <= moves; a++) {
        for (let b = a + 1; b <= moves; b++) plain.push(...(b - a === 1 ? [2, b, a, 2, a, b] : [1, b, 1, a]));
    }
    return Uint8Array.from(plain);
}

/** The tables that the page has: the braid tables, and those of samples/, which each name begins with. */
export const BUILTINS = [
    ...Array.from({ length: 16 }, (_, k) => ({ name: `braid table of ${k + 1} ${k === 0 ? 'move' : 'moves'}`, text: tableText(braidTable(k + 1)) })),
    { name: 'heavy2: 1 2 1 = 2 2, weights 1 and 2', text: 'moves 2\nweights 1 2\n1 2 1 = 2 2\n' },
    { name: 'open2: two moves, the pair open', text: 'moves 2\nweights 1 1\n' },
    { name: 'open16: 16 moves, all pairs open', text: `moves 16\nweights${' 1'.repeat(16)}\n` },
    { name: 'endless3: a reversing never ends', text: 'moves 3\nweights 1 1 1\n1 2 1 = 2 1 2\n1 3 1 = 3 1 3\n2 3 2 = 3 2 3\n' },
    { name: 'one that breaks the cube rule', text: 'moves 3\nweights 1 1 1\n1 2 = 2 1\n1 3 = 3 1\n2 1 = 3 1\n' },
];
