// The list of the faults of a source. It is read out as it changes.
import { $, targetOf } from "./dom.mjs";
import { editor } from "./editor.mjs";
import { escaped } from "./language.mjs";
import { view } from "./state.mjs";

const LISTED = 100; // the most faults that are listed
const MARK = '<span aria-hidden="true">✗</span>';

let shown = ""; // the list as HTML

/** @param {number} line */
function jumpHtml(line) {
    return line ? `<button value="${line}" aria-label="Go to line ${line}">Line ${line}</button> ` : "";
}

/** @param {Fault} fault */
function faultHtml({ line, sentence, advice }) {
    return `<li>${jumpHtml(line)}${MARK} ${escaped(sentence)} <span class="hint">${escaped(advice)}</span></li>`;
}

/**
 * Shows faults, if they aren't those that are shown.
 * @param {Fault[]} faults
 */
function listFaults(faults) {
    editor.text.setAttribute("aria-invalid", String(faults.length > 0));
    const left = faults.length - LISTED, more = left > 0 ? `<li>and ${left} lines more</li>` : "";
    const html = faults.slice(0, LISTED).map(faultHtml).join("") + more;
    if (html === shown) return;
    $("faults").innerHTML = html;
    $("mended").textContent = html ? "" : "The source has no fault any more.";
    shown = html;
}

export function makeFaults() {
    view(({ faults }) => [faults], listFaults);
    $("faults").addEventListener("click", (event) => {
        const button = /** @type {HTMLButtonElement | null} */ (targetOf(event, "button"));
        if (button) editor.goTo(Number(button.value));
    });
}
