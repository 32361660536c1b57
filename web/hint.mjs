// What is known of a line of the source, or of anything else, beside the pointer that rests on it. Escape takes it away.
import { $, targetOf } from "./dom.mjs";
import { editor } from "./editor.mjs";
import { lookRow } from "./lab.mjs";
import { explainedHtml } from "./reference.mjs";
import { state } from "./state.mjs";

const RESTS = 450; // milliseconds after which a pointer rests
const BESIDE = 20; // pixels

/** @type {ReturnType<typeof setTimeout> | undefined} */
let resting;

/**
 * What is known of a line, as HTML.
 * @param {number} line
 */
export function lineHint(line, row = state.isSame ? state.board.listing.find(({ number }) => number === line) : undefined) {
    return explainedHtml(editor.textOf(line), row, state.board.registers);
}

/**
 * Shows a hint beside a place of the window, or none.
 * @param {string} html
 * @param {{ x: number, y: number }} place
 */
export function showHint(html, { x, y }) {
    const hint = $("hint");
    hint.innerHTML = html;
    hint.hidden = !html;
    const { offsetWidth, offsetHeight } = hint, isBelow = y + BESIDE + offsetHeight < innerHeight;
    hint.style.left = `${Math.max(4, Math.min(x, innerWidth - offsetWidth - 4))}px`;
    hint.style.top = `${isBelow ? y + BESIDE : Math.max(4, y - offsetHeight - BESIDE / 2)}px`;
}

export function hideHint() {
    clearTimeout(resting);
    resting = undefined;
    $("hint").hidden = true;
}

/**
 * Does something once a pointer rests on an element, and hides the hint as it goes on.
 * @param {HTMLElement} box
 * @param {(event: PointerEvent) => void} act
 */
export function onRest(box, act) {
    box.addEventListener("pointermove", (event) => {
        hideHint();
        if (event.pointerType !== "touch" && !event.buttons) resting = setTimeout(() => act(event), RESTS);
    });
    for (const name of ["pointerleave", "pointerdown", "keydown"]) box.addEventListener(name, hideHint);
}

export function makeHint() {
    onRest(editor.cm.getWrapperElement(), async ({ clientX, clientY }) => {
        const line = editor.lineAt(clientY), mine = resting, isAsked = line && state.isSame && !state.isBusy && !state.turn;
        const row = isAsked ? await lookRow(line) : undefined;
        if (mine === resting) showHint(line ? lineHint(line, row) : "", { x: clientX, y: clientY });
    });
    onRest($("panel-listing"), (event) => {
        const line = Number(targetOf(event, "tr")?.dataset.line);
        if (line) showHint(lineHint(line), { x: event.clientX, y: event.clientY });
    });
    editor.cm.on("scroll", hideHint);
    document.addEventListener("keydown", ({ key }) => key === "Escape" && hideHint());
}
