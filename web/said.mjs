// What is said, what the program has sent, and how far a run is.
import { $ } from "./dom.mjs";
import { sameLength } from "./lines.mjs";
import { change, state, view } from "./state.mjs";

/**
 * Says what happened.
 * @param {string} text
 */
export const say = (text) => sayParts([{ text, isSent: false }]);

/** @param {Said[]} parts */
export const sayParts = (parts) => change({ said: [...parts] });

/**
 * Says something below what was said last.
 * @param {string} text
 */
export const sayMore = (text) => change({ said: [...state.said, { text: `\n${text}`, isSent: false }] });

/**
 * A part of what is said. What a program has sent is read from the console, and is only shown here.
 * @param {Said} part
 */
function partOf({ text, isSent }) {
    if (!isSent) return text;
    const span = document.createElement("span");
    span.ariaHidden = "true";
    span.textContent = text;
    return span;
}

/** @param {Said[]} said */
function showSaid(said) {
    $("answer").replaceChildren(...said.map(partOf));
    $("answer").scrollTop = 0;
}

/**
 * Cuts characters off the end of an element that has only text.
 * @param {HTMLElement} box
 * @param {number} count
 */
function cutEnd(box, count) {
    for (let more = count; more > 0; ) {
        const last = /** @type {Text} */ (box.lastChild), cut = Math.min(more, last.length);
        last.deleteData(last.length - cut, cut);
        if (!last.length) last.remove();
        more -= cut;
    }
}

/**
 * Shows the console. What is new is appended, so that it alone is read out; after a way back the end is cut off.
 * @param {string} text
 */
function showConsole(text) {
    const box = $("console"), shown = box.textContent ?? "", same = sameLength(shown, text);
    cutEnd(box, shown.length - same);
    if (text.length > same) box.append(text.slice(same));
    box.scrollTop = box.scrollHeight;
}

/**
 * Shows what a program has sent since the last time.
 * @param {string} sent
 */
export function showSent(sent) {
    if (sent) $("console").append(sent);
    $("console").scrollTop = $("console").scrollHeight;
}

/** @param {State["progress"]} progress */
function showRun(progress) {
    $("progress").hidden = !progress;
    if (!progress) return;
    const { steps, rate } = progress;
    $("progress").textContent = `Running: step ${steps.toLocaleString("en")}, ${rate.toFixed(1)} million steps a second`;
}

export function makeSaid() {
    view(({ said }) => [said], showSaid);
    view(({ board }) => [board], ({ console }) => showConsole(console));
    view(({ progress }) => [progress], showRun);
    view(({ turn }) => [turn > 0], (is) => $("answer").setAttribute("aria-busy", String(is)));
}
