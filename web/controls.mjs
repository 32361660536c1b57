// The controls: what each is named, its key, its icon, and what it does in words for those who point at it.
import { $, isAsking } from "./dom.mjs";
import { view } from "./state.mjs";

/**
 * @typedef {object} Control
 * @property {string} id
 * @property {string} title
 * @property {string} key with Alt
 * @property {string} does
 * @property {boolean} [isPrimary]
 */

/** @type {Control[][]} */
const GROUPS = [
    [{ id: "assemble", title: "Assemble", key: "A", does: "Assembles the source, and boots the board" }],
    [
        { id: "run", title: "Run", key: "R", does: "Runs up to a breakpoint, the end, or a pause", isPrimary: true },
        { id: "pause", title: "Pause", key: "P", does: "Pauses the run", isPrimary: true },
    ],
    [
        { id: "step", title: "Step", key: "S", does: "Takes a step" },
        { id: "over", title: "Over", key: "O", does: "Takes a step, and a call with all it does as one" },
        { id: "out", title: "Out", key: "U", does: "Runs until the present function or handler has returned" },
        { id: "back", title: "Back", key: "B", does: "Goes back a step" },
    ],
    [
        { id: "undo", title: "Undo", key: "Z", does: "Goes back to before the last command that took steps" },
        { id: "reset", title: "Reset", key: "0", does: "Goes back to the start" },
    ],
    [
        { id: "trap", title: "To trap", key: "T", does: "Runs up to a trap" },
        { id: "why", title: "Why?", key: "Y", does: "Explains the first trap without a handler, or else the last one" },
        { id: "break", title: "Breakpoint", key: "K", does: "Sets or clears a breakpoint at the line of the caret" },
    ],
];
/**
 * The icons, as paths in a square of 16.
 * @type {Record<string, string>}
 */
const ICONS = {
    assemble: "M3 2h7l3 3v9H3zM6 8l-2 2 2 2M10 8l2 2-2 2",
    run: "M4 2l9 6-9 6z",
    pause: "M4 3h3v10H4zM9 3h3v10H9z",
    step: "M8 2v8M4 7l4 4 4-4M4 14h8",
    over: "M2 9c1-6 10-6 12-1M14 4v4h-4M6 13h4",
    out: "M8 11V3M4 6l4-4 4 4M4 14h8",
    back: "M13 8H4M7 4L3 8l4 4",
    undo: "M3 6h6a4 4 0 010 8H6M6 3L3 6l3 3",
    reset: "M3 3v10M13 3L6 8l7 5z",
    trap: "M2 3l6 5-6 5zM12 3v6M12 12v1",
    why: "M5 6a3 3 0 116 0c0 2-3 2-3 4M8 13v.5",
    break: "M8 4a4 4 0 100 8 4 4 0 100-8z",
};
/**
 * What a screen reader says in place of titles that don't tell what a control does.
 * @type {Record<string, string>}
 */
const NAMES_READ = {
    over: "Step over",
    out: "Step out",
    back: "Step back",
    trap: "Run to trap",
    why: "Why? Explain the trap",
};
const CONTROLS = GROUPS.flat();
const SPEEDS = { 0: "Full speed", 50: "50 steps/s", 10: "10 steps/s", 2: "2 steps/s" };

/** @param {Control} control */
function buttonHtml({ id, title, key, does, isPrimary = false }) {
    const name = `aria-label="${NAMES_READ[id] ?? title}" aria-keyshortcuts="Alt+${key}"`;
    const looks = `class="${isPrimary ? "primary" : ""}" title="${does} (Alt+${key})"`;
    const icon = `<svg viewBox="0 0 16 16" aria-hidden="true"><path d="${ICONS[id]}"/></svg>`;
    return `<button id="${id}" ${name} ${looks}>${icon}<span>${title}</span> <kbd>${key}</kbd></button>`;
}

/**
 * The letter or the digit of a key: the keyboard's own, or that of the key's place on a usual keyboard where Alt or the
 * alphabet makes another character of it.
 * @param {KeyboardEvent} event
 */
function letterOf({ key, code }) {
    return /^[a-z0-9]$/i.test(key) ? key.toUpperCase() : code.replace(/^(Key|Digit)/, "");
}

/**
 * A control that is off stays in the order of focus, so that the focus isn't lost while the board runs.
 * @param {(id: string) => boolean} isOn
 */
function markControls(isOn) {
    for (const { id } of CONTROLS) $(id).setAttribute("aria-disabled", String(!isOn(id)));
}

/**
 * Makes the controls; a click, or Alt and its key, presses one. `isOn` says which can be pressed.
 * @param {(id: string) => void} press
 * @param {(id: string) => boolean} isOn
 */
export function makeControls(press, isOn) {
    const groups = GROUPS.map((group) => `<span class="group">${group.map(buttonHtml).join("")}</span>`);
    const speeds = Object.entries(SPEEDS).map(([value, title]) => `<option value=${value}>${title}</option>`);
    const speed = `<select id="speed" aria-label="Speed" title="The speed of a run">${speeds.join("")}</select>`;
    $("controls").innerHTML = [...groups, speed].join(" ");
    for (const { id } of CONTROLS) $(id).addEventListener("click", () => press(id));
    document.addEventListener("keydown", (event) => {
        if (!event.altKey || event.ctrlKey || event.metaKey || isAsking()) return;
        const pressed = letterOf(event), control = CONTROLS.find(({ key }) => key === pressed);
        if (!control) return;
        event.preventDefault();
        press(control.id);
    });
    view(({ isBusy, turn, assembled }) => [isBusy, turn, assembled], (isBusy, turn, _assembled) => {
        document.body.dataset.runs = isBusy || turn ? "yes" : "no";
        markControls(isOn);
    });
}
