// The registers and where the board is, which are always in sight. A pointer that rests on a register, a tap and Enter show
// it in all formats, and where it last changed.
import { $, field, targetOf } from "./dom.mjs";
import { hideHint, onRest, showHint } from "./hint.mjs";
import { lastChange } from "./lab.mjs";
import { escaped } from "./language.mjs";
import { meaningOf } from "./meaning.mjs";
import { recall, remember } from "./remembered.mjs";
import { change, state, view } from "./state.mjs";
import { BOTH, FORMATS, hex8, joined, placeText, registerHtml } from "./views.mjs";

/** @param {Look} board */
function whereText({ pc, label, mode, steps }) {
    return `pc ${hex8(pc)}${label ? ` <${label}>` : ""}, ${mode} mode, step ${steps.toLocaleString("en")}`;
}

let asked = 0; // the number of the hint that is shown

/** @param {Changed} changed */
function changedText({ isLong, step, here, value = 0 }) {
    if (isLong) return "The run is too long to be searched for its last change.";
    if (!step || !here) return "It hasn't changed since reset.";
    const line = here.line ? ` ${escaped(state.assembled?.split("\n")[here.line - 1]?.trim() ?? "")}` : "";
    return `Last changed with step ${step.toLocaleString("en")}, from ${hex8(value)}: ${placeText(here)}<br><code>${line}</code>`;
}

/**
 * Shows what is known of a register, and then where it last changed.
 * @param {number} index
 * @param {{ x: number, y: number }} place
 */
async function explain(index, place) {
    const mine = ++asked, { registers, steps, saved } = state.board, { name, value } = registers[index];
    const rows = Object.entries(FORMATS).map(([title, write]) => `<tr><th>${title}</th><td>${escaped(write(value))}</td></tr>`);
    const html = `<p><b>${name}</b> x${index}</p><table>${rows.join("")}</table>`;
    showHint(`${html}<p>…</p>`, place);
    const program = { source: state.assembled ?? "", inputs: saved.inputs, pages: state.pages };
    const text = await lastChange(program, steps, name).then(changedText, (error) => escaped(error.message));
    if (mine === asked && !$("hint").hidden) showHint(`${html}<p>${text}</p>`, place);
}

/** @param {Event} event */
function indexOf(event) {
    const item = targetOf(event, "li");
    return item && state.board.registers.length ? [...$("registers").children].indexOf(item) : -1;
}

/** @param {number} index */
function explainAt(index) {
    const { left, bottom } = $("registers").children[index].getBoundingClientRect();
    explain(index, { x: left, y: bottom - 12 });
}

/** Arrows move among the registers, of which one is in the order of focus. */
function listen() {
    const list = $("registers");
    onRest(list, (event) => indexOf(event) >= 0 && explain(indexOf(event), { x: event.clientX, y: event.clientY }));
    list.addEventListener("click", (event) => indexOf(event) >= 0 && explainAt(indexOf(event)));
    list.addEventListener("keydown", (event) => {
        const index = indexOf(event), move = { ArrowDown: 1, ArrowRight: 1, ArrowUp: -1, ArrowLeft: -1 }[event.key];
        if (event.key === "Enter" && index >= 0) explainAt(index);
        if (!move || index < 0) return;
        event.preventDefault();
        const items = [...list.querySelectorAll("li")], next = items.at((index + move) % items.length);
        items[index].tabIndex = -1;
        if (next) next.tabIndex = 0;
        next?.focus();
    });
}

/**
 * Draws the registers that are other ones than before.
 * @param {Look} board
 * @param {string} format
 */
function draw({ registers }, format) {
    const list = $("registers"), isOther = list.dataset.format !== format;
    list.dataset.format = format;
    registers.forEach((register, i) => {
        const item = list.children[i] ?? list.appendChild(document.createElement("li"));
        const { name, value, isChanged } = register, meaning = meaningOf(value, state);
        const now = `${name} ${value} ${isChanged} ${meaning}`;
        if (!isOther && item.getAttribute("data-now") === now) return;
        item.setAttribute("data-now", now);
        item.className = joined([isChanged && "changed", !value && "zero"], " ");
        item.innerHTML = registerHtml(register, format, meaning);
        if (!item.hasAttribute("tabindex")) item.setAttribute("tabindex", i ? "-1" : "0");
    });
}

export function makeRegisters() {
    $("format").innerHTML = [BOTH, ...Object.keys(FORMATS)].map((it) => `<option>${it}</option>`).join("");
    const kept = recall("format");
    if (kept && Object.hasOwn(FORMATS, String(kept))) change({ format: String(kept) });
    field("format").value = state.format;
    $("format").addEventListener("change", () => {
        change({ format: field("format").value });
        remember("format", state.format);
    });
    listen();
    view(({ board, format }) => [board, format], (board, format) => {
        draw(board, format);
        hideHint();
        if (board.registers.length) $("where").textContent = $("where").title = whereText(board);
    });
}
