// The words of the language, and an instruction explained: the fields of its word, and the lines of the reference.
import { escaped } from "./language.mjs";
import { hex8 } from "./views.mjs";

/**
 * The lines of docs/ASSEMBLER.md about each word of the language, which web/build puts into the page.
 * @type {Record<string, string[]>}
 */
export const REFERENCE = JSON.parse(globalThis.document?.getElementById("reference")?.textContent ?? "{}");

const OFFERED = 40; // words at once

/**
 * The words that may stand at the end of the beginning of a line, and what is typed of them.
 * @param {string} line
 * @param {string[]} registers
 * @param {string[]} names
 */
export function offersFor(line, registers, names) {
    const [typed] = line.match(/[A-Za-z_.$][\w.$]*$|$/) ?? [""], before = line.slice(0, line.length - typed.length);
    if (/["'#]|\/\//.test(before)) return { typed, offered: [] };
    const isFirst = /^\s*(?:[\w.$]+\s*:\s*)*$/.test(before);
    const all = isFirst ? Object.keys(REFERENCE) : [...registers, ...names];
    const offered = all.filter((it) => it !== typed && it.startsWith(typed));
    return { typed, offered: [...new Set(offered)].sort().slice(0, OFFERED) };
}

/** @typedef {[name: string, last: number, first: number]} Bits */

const OPCODE = /** @type {Bits} */ (["opcode", 6, 0]), RD = /** @type {Bits} */ (["rd", 11, 7]);
const FUNCT3 = /** @type {Bits} */ (["funct3", 14, 12]), RS1 = /** @type {Bits} */ (["rs1", 19, 15]);
const RS2 = /** @type {Bits} */ (["rs2", 24, 20]), FUNCT7 = /** @type {Bits} */ (["funct7", 31, 25]);

/**
 * The formats of instructions (The RISC-V Instruction Set Manual, volume I, 2.3): their fields, and their immediate.
 * @type {Record<string, { fields: Bits[], immediate?: (word: number) => number }>}
 */
const SHAPES = {
    R: { fields: [FUNCT7, RS2, RS1, FUNCT3, RD, OPCODE] },
    I: { fields: [["imm[11:0]", 31, 20], RS1, FUNCT3, RD, OPCODE], immediate: (word) => word >> 20 },
    shift: { fields: [FUNCT7, ["shamt", 24, 20], RS1, FUNCT3, RD, OPCODE] },
    csr: { fields: [["csr", 31, 20], RS1, FUNCT3, RD, OPCODE] },
    csri: { fields: [["csr", 31, 20], ["uimm", 19, 15], FUNCT3, RD, OPCODE] },
    S: {
        fields: [["imm[11:5]", 31, 25], RS2, RS1, FUNCT3, ["imm[4:0]", 11, 7], OPCODE],
        immediate: (word) => ((word >> 25) << 5) | ((word >>> 7) & 31),
    },
    B: {
        fields: [["imm[12|10:5]", 31, 25], RS2, RS1, FUNCT3, ["imm[4:1|11]", 11, 7], OPCODE],
        immediate: (word) => ((word >> 31) << 12) | (((word >>> 7) & 1) << 11) | ((word >>> 20) & 0x7e0) | ((word >>> 7) & 0x1e),
    },
    U: { fields: [["imm[31:12]", 31, 12], RD, OPCODE], immediate: (word) => word >> 12 },
    J: {
        fields: [["imm[20|10:1|11|19:12]", 31, 12], RD, OPCODE],
        immediate: (word) => ((word >> 31) << 20) | (word & 0xff000) | ((word >>> 9) & 0x800) | ((word >>> 20) & 0x7fe),
    },
};
/** @type {Record<number, string>} */
const SHAPE_OF = {
    0x03: "I", 0x0f: "I", 0x13: "I", 0x17: "U", 0x23: "S", 0x33: "R", 0x37: "U", 0x63: "B", 0x67: "I", 0x6f: "J", 0x73: "csr",
};

/** @param {number} word */
function shapeOf(word) {
    const opcode = word & 127, funct3 = (word >>> 12) & 7, shape = SHAPE_OF[opcode];
    if (opcode === 0x13 && (funct3 === 1 || funct3 === 5)) return "shift";
    if (shape === "csr" && funct3 === 0) return "I";
    return shape === "csr" && funct3 > 4 ? "csri" : shape;
}

/**
 * The fields of the word of an instruction, from its highest bit on, and its immediate; none of what is no instruction.
 * @param {number} word
 */
export function fieldsOf(word) {
    const { fields, immediate } = SHAPES[shapeOf(word)] ?? { fields: [] };
    const parts = fields.map(([name, last, first]) => {
        const value = (word >>> first) & (2 ** (last - first + 1) - 1);
        return { name, value, bits: value.toString(2).padStart(last - first + 1, "0"), last, first };
    });
    return { parts, immediate: immediate?.(word) };
}

/** @param {string} text a line of the reference, with marks round code */
const markedHtml = (text) => escaped(text).replace(/`([^`]*)`/g, "<code>$1</code>");

/**
 * @param {number} word
 * @param {Register[]} registers
 */
function fieldsHtml(word, registers) {
    const { parts, immediate } = fieldsOf(word);
    if (!parts.length) return "";
    const nameOf = (/** @type {number} */ value) => registers[value]?.name ?? `x${value}`;
    const meaning = (/** @type {{ name: string, value: number }} */ { name, value }) =>
        /^r[ds]/.test(name) ? nameOf(value) : name === "shamt" || name === "uimm" ? String(value) : "";
    const cells = [
        parts.map(({ name }) => `<th scope="col">${name}</th>`),
        parts.map(({ bits }) => `<td>${bits}</td>`),
        parts.map((part) => `<td>${meaning(part)}</td>`),
    ];
    const last = immediate === undefined ? "" : `<p>immediate ${immediate}</p>`;
    return `<table class="fields">${cells.map((row) => `<tr>${row.join("")}</tr>`).join("")}</table>${last}`;
}

/**
 * The first word of the statement of a line.
 * @param {string} text
 */
export const statementWord = (text) => text.match(/^\s*(?:[\w.$]+\s*:\s*)*([A-Za-z_.][\w.]*)(?![\w.$]*\s*:)/)?.[1] ?? "";

/**
 * What is known of a line: its address and its word, the word's fields, and the lines of the reference.
 * @param {string} text
 * @param {Row | undefined} row
 * @param {Register[]} registers
 */
export function explainedHtml(text, row, registers) {
    const lines = REFERENCE[statementWord(text)] ?? [];
    const isInstruction = row?.word !== undefined && !statementWord(text).startsWith(".");
    if (!lines.length && !isInstruction) return "";
    const place = [row?.address, row?.word].filter((it) => it !== undefined).map((it) => `<code>${hex8(Number(it))}</code>`);
    const head = place.length ? `<p>${place.join(": ")}</p>` : "";
    const fields = isInstruction && row?.word !== undefined ? fieldsHtml(row.word, registers) : "";
    return `<p><b>${escaped(text.trim())}</b></p>${head}${fields}${lines.map((it) => `<p>${markedHtml(it)}</p>`).join("")}`;
}
