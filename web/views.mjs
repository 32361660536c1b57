// The views of the board as HTML: registers, control registers, the listing, and what an interrupt source says.
import { colourLine, escaped } from "./language.mjs";

/** @param {number} number */
export const hex8 = (number) => number.toString(16).padStart(8, "0");

/** @param {unknown[]} parts */
export const joined = (parts, between = ", ") => parts.filter(Boolean).join(between);

/**
 * A table with a title, the heads of its columns and its rows, each with attributes or none.
 * @param {string} title
 * @param {string[]} heads
 * @param {(string | number)[][]} rows
 * @param {string[]} attributes
 */
export function table(title, heads, rows, attributes = []) {
    const head = heads.map((it) => `<th scope="col">${it}</th>`).join("");
    const cells = rows.map((row) => `<td>${row.join("</td><td>")}</td>`);
    const body = cells.map((row, i) => `<tr ${attributes[i] ?? ""}>${row}</tr>`);
    const parts = [`<thead><tr>${head}</tr></thead>`, `<tbody>${body.join("")}</tbody>`];
    return `<table><caption>${title}</caption>${parts.join("")}</table>`;
}

// ---- Registers

/** @param {number} byte */
const isPrinting = (byte) => byte >= 0x20 && byte < 0x7f;

/** @param {(number | undefined)[]} bytes */
export const textOf = (bytes) => bytes.map((it) => (it && isPrinting(it) ? String.fromCharCode(it) : ".")).join("");

/** @param {number} word */
const bytesOf = (word) => [0, 8, 16, 24].map((shift) => (word >>> shift) & 255);

/** @param {number} word */
function characters(word) {
    if (word < 256) return isPrinting(word) ? `'${String.fromCharCode(word)}'` : String(word);
    return `"${textOf(bytesOf(word))}"`;
}

/** @param {number} word */
const binary = (word) => [24, 16, 8, 0].map((shift) => ((word >>> shift) & 255).toString(2).padStart(8, "0")).join(" ");

/**
 * How the words of registers are written, by name.
 * @type {Record<string, (word: number) => string>}
 */
export const FORMATS = {
    hexadecimal: hex8,
    signed: (word) => String(word | 0),
    unsigned: String,
    characters,
    binary,
};
export const BOTH = "hex and meaning";

/**
 * A register in a format: by itself in hexadecimal, beside what that means.
 * @param {Register} register
 * @param {string} format
 * @param {string} meaning
 */
export function registerHtml({ name, value, isChanged }, format, meaning) {
    const mark = isChanged ? '<i>*<span class="unseen">changed</span></i>' : "";
    const values = (format === BOTH ? [hex8(value), meaning] : [FORMATS[format](value)]).map(escaped);
    return `<b>${name}</b>${mark} ${values.map((it) => `<span>${it}</span>`).join(" ")}`;
}

/**
 * A place in the program: its address, the label before it, and its line.
 * @param {Place} place
 */
export function placeText({ address, label, distance, line }) {
    const near = label === null ? "" : `&lt;${escaped(label)}${distance ? `+${distance}` : ""}&gt;`;
    return joined([hex8(address), near, line && `line ${line}`], " ");
}

/** @param {Control[]} registers */
export function controlHtml(registers) {
    const rows = registers.map(({ name, word, fields }) => [name, word, escaped(fields)]);
    return table("Control registers by field", ["Name", "Value", "Fields"], rows);
}

// ---- The listing

/** @param {number | undefined} word */
const hexOf = (word) => (word === undefined ? "" : hex8(word));

/**
 * The listing; a click on one of its lines sets or clears a breakpoint.
 * @param {Row[]} rows
 */
export function listingHtml(rows) {
    const cells = rows.map(({ isHere, isMarked, address, word, number, text }) => {
        const marks = joined([isHere && "➤", isMarked && "●"], "");
        return [marks, hexOf(address), hexOf(word), number, colourLine(text)];
    });
    const attributes = rows.map(({ isHere, number }) => {
        return `data-line="${number}" ${isHere ? 'class="here" aria-current="true"' : ""}`;
    });
    return table("Listing", ["Mark", "Address", "Word", "Line", "Source"], cells, attributes);
}

// ---- Devices

/**
 * What the interrupt controller says of a source, beside its switch.
 * @param {Source | undefined} source
 */
export function sourceText(source) {
    if (!source) return "";
    const { request, isEnabled, priority, edges } = source;
    return joined([request, isEnabled && "enabled", `priority ${priority}`, edges && `${edges} edges`]);
}
