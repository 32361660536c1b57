// Memory, which scrolls from its first byte to its last, and the stack.
import { $, field } from "./dom.mjs";
import { lookMemory } from "./lab.mjs";
import { escaped } from "./language.mjs";
import { meaningOf } from "./meaning.mjs";
import { MEMORY } from "./protection.mjs";
import { state } from "./state.mjs";
import { hex8, table, textOf } from "./views.mjs";

const WIDE = 41; // letters' sizes of a pane in which a row has 16 bytes; in a narrower one it has 8
const LEAST_ROWS = 8;
const STACK = 256; // bytes of the stack that are shown

export const MEMORY_HTML = `<p class="bar"><label>From <input id="memory-where" value="0x80000000" size="12"
    aria-describedby="memory-help" title="a register, a name, a line or 0x and a number, also with +N"></label>
    <button id="memory-earlier" aria-label="Earlier memory" title="Earlier memory">▲</button>
    <button id="memory-later" aria-label="Later memory" title="Later memory">▼</button>
    <label><input id="memory-words" type="checkbox"> as words</label>
    <span class="hint" id="memory-help">a register, a name, a line or 0x.., also with +N</span></p>
    <div id="memory-rows" tabindex="0" aria-label="Memory" role="group">
    <div class="shown"></div><div class="space" aria-hidden="true"></div></div>`;

/** The bytes of the memory that the present program has. */
const size = () => state.pages * 4096;

/** The bytes of a row. */
function rowSize() {
    const box = $("memory-rows"), letter = parseFloat(getComputedStyle(box).fontSize);
    return box.clientWidth < WIDE * letter ? 8 : 16;
}

/** The height of a row, and how many rows are in sight. */
function rowsInSight() {
    const box = $("memory-rows"), row = box.querySelector("tbody tr"), head = box.querySelector("thead");
    const height = row?.getBoundingClientRect().height || 18;
    const room = box.clientHeight - (head?.getBoundingClientRect().height ?? height);
    return { height, count: Math.max(LEAST_ROWS, Math.floor(room / height)) };
}

/** What the tab of the memory asks: as many rows as are in sight, from what stands in its field, which is one place. */
export function askMemory() {
    const where = field("memory-where").value.trim().replace(/\s*([+-])\s*/g, "$1");
    return lookMemory(where || "sp", rowsInSight().count * rowSize());
}

/**
 * What points at one of some bytes.
 * @param {number} first
 * @param {number} length
 * @param {Label[]} pointers
 */
const pointersAt = (first, length, pointers) => pointers.filter(({ at }) => first <= at && at < first + length);

/** @param {Label[]} pointers */
const namesOf = (pointers) => pointers.map(({ name }) => name).join(", ");

/** Where the stack and pc are, and the labels. */
function pointersOf({ board, labels } = state) {
    const frame = board.registers.filter(({ name }) => name === "sp" || name === "s0");
    const stack = frame.map(({ name, value }) => ({ name: `◀ ${name}`, at: value }));
    return [...stack, { name: "◀ pc", at: board.pc }, ...labels];
}

/** @param {number | undefined} byte */
const byteText = (byte) => byte?.toString(16).padStart(2, "0") ?? "--";

/** @param {(number | undefined)[]} bytes */
function wordsOf(bytes) {
    const starts = Array.from({ length: Math.ceil(bytes.length / 4) }, (_, i) => 4 * i);
    return starts.map((at) => bytes.slice(at, at + 4).reverse().map(byteText).join(""));
}

/**
 * The bytes or words of a row, of which those that something points at are marked.
 * @param {string[]} cells
 * @param {number} length of a cell
 * @param {number} first
 * @param {Label[]} pointers
 */
function cellsHtml(cells, length, first, pointers) {
    const marked = cells.map((text, i) => {
        const here = pointersAt(first + length * i, length, pointers);
        return here.length ? `<mark title="${namesOf(here)}">${text}</mark>` : text;
    });
    return marked.join(" ");
}

/**
 * The rows of a part of memory.
 * @param {Memory} memory
 */
function rowsOf({ at, bytes }) {
    const isWords = field("memory-words").checked, pointers = pointersOf(), row = rowSize();
    const starts = Array.from({ length: Math.ceil(bytes.length / row) }, (_, i) => row * i);
    const isThere = (/** @type {number} */ start) => start === 0 || at < MEMORY || at + start < MEMORY + size();
    const rows = starts.filter(isThere).map((start) => {
        const part = bytes.slice(start, start + row), first = at + start, here = pointersAt(first, row, pointers);
        const shown = isWords ? cellsHtml(wordsOf(part), 4, first, here) : cellsHtml(part.map(byteText), 1, first, here);
        return [hex8(first), shown, escaped(textOf(part)), escaped(namesOf(here))];
    });
    const attributes = rows.map(([, , , names]) => `class="${/◀/.test(names) ? "pointed" : ""}" title="${names}"`);
    return table("Memory", ["Address", isWords ? "Words" : "Bytes", "Text", "Here"], rows, attributes);
}

/**
 * Shows a part of memory, and where it is in all of it.
 * @param {HTMLElement} panel
 * @param {Memory} memory
 */
export function showMemory(panel, memory) {
    const shown = /** @type {HTMLElement} */ (panel.querySelector(".shown"));
    const space = /** @type {HTMLElement} */ (panel.querySelector(".space"));
    shown.innerHTML = memory.refused ? `<p>${escaped(memory.refused)}</p>` : rowsOf(memory);
    const { at, bytes } = memory, isInside = MEMORY <= at && at < MEMORY + size();
    const { height } = rowsInSight(), row = rowSize(), above = Math.floor((at - MEMORY) / row);
    const first = isInside ? String(above) : "", count = String(Math.ceil(bytes.length / row));
    Object.assign($("memory-rows").dataset, { first, count, row, odd: at % row });
    space.style.height = isInside ? `${(size() / row) * height}px` : "0";
    // Scrolled to its end, the last row is in sight.
    const beyond = shown.offsetHeight + Math.ceil(bytes.length / row) * height - $("memory-rows").clientHeight;
    space.style.marginTop = isInside ? `${-beyond}px` : "0";
    if (isInside) $("memory-rows").scrollTop = above * height;
}

/**
 * Begins the memory: `onChange` is called when another part is to be shown.
 * @param {() => void} onChange
 */
export function makeMemory(onChange) {
    const box = $("memory-rows");
    const scrollTo = (/** @type {number} */ row) => {
        const last = size() / rowSize() - 1, to = Math.min(last, Math.max(0, row));
        field("memory-where").value = `0x${hex8(MEMORY + rowSize() * to + Number(box.dataset.odd))}`;
        onChange();
    };
    for (const id of ["memory-where", "memory-words"]) $(id).addEventListener("change", onChange);
    const turnPage = (/** @type {1 | -1} */ sign) => {
        const { first, count } = box.dataset;
        if (first) scrollTo(Number(first) + sign * Number(count));
    };
    $("memory-earlier").addEventListener("click", () => turnPage(-1));
    $("memory-later").addEventListener("click", () => turnPage(1));
    box.addEventListener("scroll", () => {
        const row = Math.round(box.scrollTop / rowsInSight().height);
        if (box.dataset.first && row !== Number(box.dataset.first)) scrollTo(row);
    });
    new ResizeObserver(() => {
        const { first, count, row } = box.dataset;
        const isOther = rowsInSight().count > Number(count) || rowSize() !== Number(row);
        if (box.checkVisibility() && first && isOther) onChange();
    }).observe(box);
}

// ---- The stack

export const askStack = () => lookMemory("sp", STACK);

/**
 * What a word of the stack may be: a number, an address, or the place after a call, with its line.
 * @param {string} word
 */
function meaningOfWord(word) {
    const at = parseInt(word, 16), row = state.board.listing.find(({ address }) => address === at);
    return row ? `line ${row.number}: ${row.text.trim()}` : meaningOf(at, state);
}

/**
 * Shows the words of the stack from sp on.
 * @param {HTMLElement} panel
 * @param {Memory} memory
 */
export function showStack(panel, { at, bytes, refused }) {
    const pointers = pointersOf().filter(({ name }) => name.startsWith("◀")), words = wordsOf(bytes);
    const there = words.slice(0, Math.max(0, words.findIndex((it) => it.includes("-"))) || words.length);
    if (refused || bytes[0] === undefined) {
        const none = `sp is ${hex8(at)}, where no memory is: the program has no stack yet.`;
        panel.innerHTML = `<p>${escaped(refused) || none}</p>`;
        return;
    }
    const rows = there.map((word, i) => {
        const offset = `sp + ${4 * i}`;
        return [hex8(at + 4 * i), offset, word, escaped(meaningOfWord(word)), namesOf(pointersAt(at + 4 * i, 4, pointers))];
    });
    const heads = ["Address", "Place", "Word", "Meaning", "Here"];
    const attributes = rows.map(([, , , , marks]) => (marks ? 'class="pointed"' : ""));
    panel.innerHTML = table("The stack, from its top on", heads, rows, attributes);
}
