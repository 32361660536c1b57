// The panels of the tabs: what each asks the lab, and how it shows the answer.
import { $ } from "./dom.mjs";
import { lineHint } from "./hint.mjs";
import { lookControl, lookDevices, lookProtection, tellTraps } from "./lab.mjs";
import { MEMORY_HTML, askMemory, askStack, showMemory, showStack } from "./memory.mjs";
import { protectionHtml } from "./protection.mjs";
import { state } from "./state.mjs";
import { controlHtml, listingHtml, sourceText } from "./views.mjs";

const EXPLAINED = 1000000; // the most steps that are run again to explain a trap without being asked
const CONTROL = [
    ...["mstatus", "misa", "mie", "mip", "mtvec", "mscratch", "mepc", "mcause", "mtval"],
    ...["mcycle", "mcycleh", "minstret", "minstreth", "mhartid"],
    ...["pmpcfg0", "pmpcfg1", "pmpcfg2", "pmpcfg3"],
    ...Array.from({ length: 16 }, (_, entry) => `pmpaddr${entry}`),
];
const nothing = async () => {};

/**
 * @typedef {object} Panel
 * @property {string} title
 * @property {string} [html] what stands in it from the beginning
 * @property {(state: State) => Promise<any>} ask
 * @property {(panel: HTMLElement, answer: any, state: State) => void} show
 */

/** @type {Record<string, Panel>} */
export const PANELS = {
    control: {
        title: "CSRs",
        ask: () => lookControl(CONTROL),
        show: (panel, answer) => (panel.innerHTML = controlHtml(answer)),
    },
    memory: { title: "Memory", html: MEMORY_HTML, ask: askMemory, show: showMemory },
    stack: { title: "Stack", ask: askStack, show: showStack },
    listing: { title: "Listing", ask: nothing, show: showListing },
    instruction: {
        title: "Instruction",
        ask: nothing,
        show: (panel) => (panel.innerHTML = lineHint(state.here) || `<p class="hint">pc is at no line of the source.</p>`),
    },
    traps: {
        title: "Traps",
        html: `<pre class="shown"></pre>
            <h3>Why: the first trap without a handler, or else the last one</h3><pre class="why"></pre>`,
        ask: ({ board }) => tellTraps(board.steps <= EXPLAINED),
        show: showTraps,
    },
    devices: {
        title: "Devices",
        html: `<pre class="shown"></pre>
            <h3>Interrupt lines</h3>
            <p class="hint">Sources 1 to 23 ask while their line is high, 24 to 31 at each rise.</p>
            <ul id="lines"></ul>`,
        ask: lookDevices,
        show: showDevices,
    },
    protection: {
        title: "Protection",
        ask: lookProtection,
        show: showProtection,
    },
    repeat: {
        title: "Repeat",
        html: `<label for="inputs">Timed list for the next Assemble</label>
            <textarea id="inputs" rows="4" spellcheck="false" placeholder="100 rx 48 69"></textarea>
            <p><label>Memory at the next Assemble <input id="pages" type="number" min="1" max="4096"> pages of 4,096
            bytes</label></p>
            <h3>Inputs so far</h3><pre class="shown"></pre>
            <h3>Commands that repeat the run</h3><pre class="commands"></pre>
            <p><code class="options"></code></p>
            <p><button id="save-input">Save lab.input</button>
            <button id="save-commands">Save lab.commands</button></p>
            <h3>What was done</h3><pre class="done"></pre>`,
        ask: nothing,
        show: showRepeat,
    },
};

/**
 * Puts a text into a part of a panel.
 * @param {HTMLElement} panel
 * @param {string} part
 * @param {string} text
 */
function putText(panel, part, text) {
    const it = panel.querySelector(part);
    if (it) it.textContent = text;
}

/**
 * @param {HTMLElement} panel
 * @param {void} _
 * @param {State} state
 */
function showListing(panel, _, { board }) {
    panel.innerHTML = listingHtml(board.listing);
    const row = /** @type {HTMLElement | null} */ (panel.querySelector("tr.here"));
    if (!row) return;
    const { offsetTop, offsetHeight } = row, { scrollTop, clientHeight } = panel;
    const isSeen = scrollTop <= offsetTop && offsetTop + offsetHeight <= scrollTop + clientHeight;
    if (!isSeen) panel.scrollTop = offsetTop - clientHeight / 2; // the panel alone: the page stays where it is
}

/**
 * @param {HTMLElement} panel
 * @param {{ text: string, why?: string }} answer
 */
function showTraps(panel, { text, why = "Why? (Alt+Y) explains it: the run is long." }) {
    putText(panel, ".shown", text);
    putText(panel, ".why", why);
}

/**
 * The switch of an interrupt line.
 * @param {number} number
 */
function switchHtml(number) {
    const words = `role="switch" aria-checked="false" aria-label="Line ${number}" value="${number}"`;
    return `<li><button ${words}>${number} <span class="level">low</span></button> <span class="says"></span></li>`;
}

/**
 * @param {HTMLElement} panel
 * @param {Devices} answer
 * @param {State} state
 */
function showDevices(panel, { text, sources }, { board }) {
    putText(panel, ".shown", text);
    panel.querySelectorAll("#lines li").forEach((it, i) => {
        const line = /** @type {HTMLElement} */ (it), isHigh = board.levels[i + 1] ?? false;
        line.querySelector("button")?.setAttribute("aria-checked", String(isHigh));
        putText(line, ".level", isHigh ? "high" : "low");
        putText(line, ".says", sourceText(sources[i + 1]));
    });
}

/**
 * @param {HTMLElement} panel
 * @param {{ regions: Region[], traps: Trap[] }} answer
 * @param {State} state
 */
function showProtection(panel, { regions, traps }, { pages }) {
    panel.innerHTML = protectionHtml(regions, pages, traps);
}

/**
 * @param {HTMLElement} panel
 * @param {void} _
 * @param {State} state
 */
function showRepeat(panel, _, { board: { saved }, done }) {
    putText(panel, ".shown", saved.inputs || "none");
    putText(panel, ".commands", saved.commands || "none");
    putText(panel, ".done", done.join("\n") || "none");
    putText(panel, ".options", `rvboard SOURCE --input lab.input --commands lab.commands ${saved.options}`);
}

export function makeLines() {
    $("lines").innerHTML = Array.from({ length: 31 }, (_, i) => switchHtml(i + 1)).join("");
}
