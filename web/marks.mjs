// The marks of the source's lines: the line at pc, breakpoints, which move with their lines, and faults.
import { cutAt } from "./lines.mjs";
import { change, state } from "./state.mjs";

/**
 * @typedef {import("codemirror/lib/codemirror.js").default} CodeMirror
 * @typedef {import("codemirror/lib/codemirror.js").LineHandle} LineHandle
 * @typedef {import("codemirror/lib/codemirror.js").Mark} Mark
 */

export const GUTTER = "marks"; // the editor's, which has them
const MARKED = 1000; // the most faults that are marked

export class Marks {
    faults = state.faults;
    /** @type {LineHandle[]} */
    marked = []; // the lines with a mark
    /** @type {Mark[]} */
    places = []; // of faults
    /** @type {LineHandle[]} */
    stops = []; // the lines with breakpoints

    /** @param {CodeMirror} cm */
    constructor(cm) {
        this.cm = cm;
    }

    /** Another source comes: no breakpoint moves to its lines. */
    forget() {
        this.stops = [];
    }

    /** A line that moves takes its breakpoint along, and one that goes loses it. */
    moved() {
        if (!this.stops.length) return;
        const lines = this.stops.flatMap((it) => this.cm.getLineNumber(it) ?? []).map((it) => it + 1);
        const isSame = lines.length === state.breakpoints.size && lines.every((it) => state.breakpoints.has(it));
        if (!isSame) change({ breakpoints: new Set(lines) });
    }

    /**
     * Marks the line at pc, or none where that is 0, the breakpoints and the faults.
     * @param {number} here
     * @param {Set<number>} breakpoints
     * @param {Fault[]} faults
     */
    show(here, breakpoints, faults) {
        this.cm.operation(() => {
            this.clear();
            for (const line of breakpoints) this.mark(line, "●", "stop");
            if (here) this.mark(here, breakpoints.has(here) ? "◉" : "➤", "here");
            for (const { line } of faults.slice(0, MARKED)) this.mark(line, "✗", "fault");
            if (faults !== this.faults) this.underline(faults);
        });
        this.stops = [...breakpoints].flatMap((line) => this.cm.getLineHandle(line - 1) ?? []);
    }

    clear() {
        for (const handle of this.marked) {
            this.cm.setGutterMarker(handle, GUTTER, null);
            this.cm.removeLineClass(handle, "wrap", "here");
        }
        this.marked = [];
    }

    /**
     * Sets the mark beside a line.
     * @param {number} line
     * @param {string} mark
     * @param {string} kind
     */
    mark(line, mark, kind) {
        const box = document.createElement("i"), handle = this.cm.getLineHandle(line - 1);
        if (!handle) return;
        box.textContent = mark;
        box.className = kind;
        this.cm.setGutterMarker(handle, GUTTER, box);
        if (kind === "here") this.cm.addLineClass(handle, "wrap", kind);
        this.marked.push(handle);
    }

    /**
     * Underlines the places of faults. One at the end of a line has the last character.
     * @param {Fault[]} faults
     */
    underline(faults) {
        for (const it of this.places) it.clear();
        this.faults = faults;
        this.places = faults.slice(0, MARKED).filter(({ line }) => line).map((fault) => {
            const line = fault.line - 1, text = this.cm.getLine(line) ?? "", [before, place] = cutAt(text, fault);
            const ch = Math.max(0, Math.min(before.length, text.length - 1));
            return this.cm.markText({ line, ch }, { line, ch: before.length + place.length }, { className: "cm-fault" });
        });
    }
}
