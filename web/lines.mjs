// Texts by their lines, and texts as bytes. A text area holds characters, and each of its lines ends with a line feed;
// a file holds bytes. What can't stand in a text area has a stand-in there, a lone surrogate of 0xdc00 and the byte: so
// has each byte that is no UTF-8, and each carriage return that ends no line. What is shown, run and saved is then the
// file's bytes.

const STAND_IN = 0xdc00;
// How characters are coded: the first and the last of their first bytes, how many bytes follow, and the first and the
// last of those that may follow directly (RFC 3629, 4).
const FORMS = [
    [0x00, 0x7f, 0],
    [0xc2, 0xdf, 1, 0x80, 0xbf],
    [0xe0, 0xe0, 2, 0xa0, 0xbf],
    [0xe1, 0xec, 2, 0x80, 0xbf],
    [0xed, 0xed, 2, 0x80, 0x9f],
    [0xee, 0xef, 2, 0x80, 0xbf],
    [0xf0, 0xf0, 3, 0x90, 0xbf],
    [0xf1, 0xf3, 3, 0x80, 0xbf],
    [0xf4, 0xf4, 3, 0x80, 0x8f],
];

/**
 * Puts pieces of bytes together.
 * @param {(Uint8Array | number[])[]} pieces
 */
export function joinBytes(pieces) {
    const all = new Uint8Array(pieces.reduce((sum, piece) => sum + piece.length, 0));
    pieces.reduce((place, piece) => (all.set(piece, place), place + piece.length), 0);
    return all;
}

/**
 * The bytes of a text; each stand-in is its byte.
 * @param {string} text
 */
export function encode(text) {
    const encoder = new TextEncoder();
    const pieces = text.split(/([\udc00-\udcff])/u); // with `u` no half of a pair
    return joinBytes(pieces.map((piece, i) => (i % 2 ? [piece.charCodeAt(0) - STAND_IN] : encoder.encode(piece))));
}

/**
 * How many bytes the character at a place has, or 0 where there is none.
 * @param {Uint8Array} bytes
 * @param {number} at
 */
function lengthAt(bytes, at) {
    const form = FORMS.find(([first, last]) => first <= bytes[at] && bytes[at] <= last);
    if (!form) return 0;
    const [, , more, least, most] = form, next = bytes[at + 1];
    if (more && !(least <= next && next <= most)) return 0;
    const rest = bytes.subarray(at + 2, at + 1 + more);
    return rest.length === Math.max(0, more - 1) && rest.every((byte) => byte >> 6 === 2) ? more + 1 : 0;
}

/**
 * A text of bytes of which some are no UTF-8.
 * @param {Uint8Array} bytes
 * @param {TextDecoder} decoder
 */
function decodeEach(bytes, decoder) {
    const parts = [];
    let from = 0, at = 0;
    while (at < bytes.length) {
        const length = lengthAt(bytes, at);
        if (!length) {
            parts.push(decoder.decode(bytes.subarray(from, at)), String.fromCharCode(STAND_IN + bytes[at]));
            from = at + 1;
        }
        at += length || 1;
    }
    return parts.join("") + decoder.decode(bytes.subarray(from));
}

/**
 * The text of bytes, from which `encode` makes the same bytes.
 * @param {Uint8Array} bytes
 */
export function decodeAll(bytes) {
    const decoder = new TextDecoder("utf-8", { fatal: true, ignoreBOM: true });
    try {
        return decoder.decode(bytes);
    } catch {
        return decodeEach(bytes, decoder);
    }
}

/**
 * A text as a text area shows it: carriage returns that end lines are left out, and the others have stand-ins.
 * @param {string} text
 */
export function asShown(text) {
    return text.replace(/\r\n|\r$/g, "\n").replaceAll("\r", String.fromCharCode(STAND_IN + 13));
}

/**
 * How many stand-ins a text has, and the line and the column of the first one.
 * @param {string} text
 */
export function standIns(text) {
    const found = [...text.matchAll(/[\udc00-\udcff]/gu)];
    const before = text.slice(0, found[0]?.index).split("\n");
    return { count: found.length, line: before.length, column: [...before[before.length - 1]].length + 1 };
}

/**
 * How many lines a text has: what follows the last line end is one, unless it is empty.
 * @param {string} text
 */
export function countLines(text) {
    return text.split("\n").length - (text === "" || text.endsWith("\n") ? 1 : 0);
}

/**
 * A text of which each line stands behind a bar. A backslash at its end says that its last line isn't ended.
 * @param {string} text
 */
export function barred(text) {
    const lines = `| ${text.replaceAll("\n", "\n| ")}`;
    return text && (text.endsWith("\n") ? lines.slice(0, -2) : `${lines}\\\n`);
}

/**
 * How many characters at the beginning of two texts are the same.
 * @param {string} before
 * @param {string} now
 */
export function sameLength(before, now) {
    if (now.startsWith(before)) return before.length;
    let same = 0;
    while (same < now.length && now[same] === before[same]) same++;
    return same;
}

/**
 * How many lines at the beginning and at the end of two lists are the same.
 * @param {string[]} before
 * @param {string[]} now
 */
export function sameLines(before, now) {
    const least = Math.min(now.length, before.length);
    let first = 0, last = 0;
    while (first < least && now[first] === before[first]) first++;
    while (last < least - first && now.at(-1 - last) === before.at(-1 - last)) last++;
    return { first, last };
}

/**
 * A shown text with the line ends of the text that it was: the lines that are the same at the beginning and at the end
 * keep theirs, and the others have that of the first line.
 * @param {string} shown
 * @param {string} text
 */
export function withEndsOf(shown, text) {
    if (shown === asShown(text)) return text;
    const ends = text.match(/\r?\n/g) ?? ["\n"], before = asShown(text).split("\n"), now = shown.split("\n");
    const { first, last } = sameLines(before, now), more = now.length - before.length;
    const endOf = (/** @type {number} */ i) => (i < first ? ends[i] : i >= now.length - last ? ends[i - more] : ends[0]) ?? ends[0];
    return now.map((line, i) => (i < now.length - 1 ? line + endOf(i) : line)).join("");
}

/**
 * The byte for which a character stands in, or nothing.
 * @param {string} character
 */
export function byteOf(character) {
    const byte = character.charCodeAt(0) - STAND_IN;
    return 0 <= byte && byte < 256 ? byte : undefined;
}

/**
 * A line as what precedes the place of a fault, and the place.
 * @param {string} line
 * @param {{ before: number, length: number }} fault
 */
export function cutAt(line, { before, length }) {
    const bytes = encode(line);
    return [decodeAll(bytes.slice(0, before)), decodeAll(bytes.slice(before, before + length))];
}
