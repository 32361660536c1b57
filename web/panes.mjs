// The panes can be resized by the lines between them, with a pointer or with arrows. Their sizes are remembered.
import { $ } from "./dom.mjs";
import { recall, remember } from "./remembered.mjs";

/**
 * A line between panes: the size that it sets, in percent of the width of all or in rem; what a step of an arrow adds;
 * and the sign of a movement down or to the right.
 * @type {{ id: string, size: string, unit: "%" | "rem", least: number, most: number, sign: 1 | -1, pane: string }[]}
 */
const SPLITS = [
    { id: "split-source", size: "--source-width", unit: "%", least: 20, most: 70, sign: 1, pane: "source" },
    { id: "split-views", size: "--board-width", unit: "%", least: 20, most: 50, sign: 1, pane: "board" },
    { id: "split-answer", size: "--answer-height", unit: "rem", least: 3, most: 40, sign: 1, pane: "answer" },
    { id: "split-console", size: "--console-height", unit: "rem", least: 3, most: 40, sign: -1, pane: "console" },
];
const STEP = 2;

const root = document.documentElement;

/** How many pixels a unit has. */
const pixels = {
    "%": () => {
        const { width, paddingLeft, paddingRight } = getComputedStyle($("panes"));
        return (parseFloat(width) - parseFloat(paddingLeft) - parseFloat(paddingRight)) / 100;
    },
    rem: () => parseFloat(getComputedStyle(root).fontSize),
};

/** @typedef {(typeof SPLITS)[number]} Split */

/** @param {Split} split */
function sizeOf({ unit, pane }) {
    const { width, height } = $(pane).getBoundingClientRect();
    return (unit === "%" ? width : height) / pixels[unit]();
}

/**
 * Sets the size of a pane, or sets it back to what it is without a choice.
 * @param {Split} split
 * @param {number | null} size
 */
function setSize({ id, size: name, unit, least, most }, size) {
    const now = size === null ? null : Math.min(most, Math.max(least, Math.round(size * 10) / 10));
    if (now === null) root.style.removeProperty(name);
    else root.style.setProperty(name, `${now}${unit}`);
    $(id).setAttribute("aria-valuenow", String(Math.round(now ?? least)));
    remember(name, now);
}

/** @param {Split} split */
function makeSplit(split) {
    const { id, size, unit, least, most, sign } = split, line = $(id), isWidth = unit === "%";
    line.setAttribute("aria-orientation", isWidth ? "vertical" : "horizontal");
    line.setAttribute("aria-valuemin", String(least));
    line.setAttribute("aria-valuemax", String(most));
    const kept = recall(size);
    setSize(split, typeof kept === "number" ? kept : null);
    line.addEventListener("pointerdown", (event) => {
        const place = isWidth ? event.clientX : event.clientY, began = sizeOf(split);
        line.setPointerCapture(event.pointerId);
        line.onpointermove = ({ clientX, clientY }) => {
            setSize(split, began + (sign * ((isWidth ? clientX : clientY) - place)) / pixels[unit]());
        };
    });
    line.addEventListener("lostpointercapture", () => (line.onpointermove = null));
    line.addEventListener("dblclick", () => setSize(split, null));
    line.addEventListener("keydown", (event) => {
        const move = { ArrowRight: 1, ArrowDown: 1, ArrowLeft: -1, ArrowUp: -1 }[event.key];
        if (!move) return;
        event.preventDefault();
        setSize(split, sizeOf(split) + sign * move * STEP);
    });
}

export function makePanes() {
    for (const split of SPLITS) makeSplit(split);
}
