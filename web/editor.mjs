// The editor of the source: CodeMirror, with the language's colours, the marks of lines, and a breakpoint at each line
// whose number is clicked.
import CodeMirror from "codemirror/lib/codemirror.js";
import "codemirror/addon/comment/comment.js";
import "codemirror/addon/hint/show-hint.js";
import { $ } from "./dom.mjs";
import { assembly } from "./language.mjs";
import { byteOf, cutAt } from "./lines.mjs";
import { GUTTER, Marks } from "./marks.mjs";
import { view } from "./state.mjs";
import { Wrapping } from "./wrapping.mjs";

/**
 * @typedef {import("codemirror/lib/codemirror.js").Mode} Mode
 * @typedef {import("codemirror/lib/codemirror.js").Stream} Stream
 */

const INDENT = 8;
// Characters that nobody sees as they are: controls, blanks of other kinds, what turns the direction of a text, and the
// stand-ins of bytes.
const ODD = new RegExp(
    "[\\0-\\x08\\x0b-\\x1f\\x7f-\\xa0\\xad\\u061c\\u200b-\\u200f\\u2028-\\u202e\\u2066-\\u2069\\ufeff\\ufff9-\\ufffc]"
        + "|(?<![\\ud800-\\udbff])[\\udc00-\\udfff]",
);

/**
 * What is shown of a character that nobody sees as it is: its byte or its number.
 * @param {string} character
 */
function oddHtml(character) {
    const box = document.createElement("span"), byte = byteOf(character), code = character.charCodeAt(0);
    box.className = "cm-odd";
    box.textContent = byte === undefined ? `U+${code.toString(16).padStart(4, "0")}` : `\\x${byte.toString(16)}`;
    box.title = byte === undefined ? "a character that isn't seen" : "a byte that is no text";
    return box;
}

/**
 * Begins a line with the indentation of the last.
 * @param {CodeMirror} cm
 */
function breakLine(cm) {
    const { line, ch } = cm.getCursor("from"), [blanks] = cm.getLine(line)?.slice(0, ch).match(/^[ \t]*/) ?? [""];
    cm.replaceSelection(`\n${blanks}`, "end", "+input");
    cm.scrollIntoView(null);
}

class Editor {
    cm = CodeMirror($("editor"), {
        mode: "rvboard",
        theme: "rvboard",
        inputStyle: "contenteditable", // a screen reader reads the lines themselves
        lineNumbers: true,
        gutters: [GUTTER, "CodeMirror-linenumbers"],
        tabSize: INDENT,
        indentUnit: INDENT,
        lineSeparator: "\n",
        specialChars: ODD,
        specialCharPlaceholder: oddHtml,
        maxHighlightLength: 2000,
        workTime: 10, // milliseconds: no line's colours depend on those before it
        // Tab moves the focus on, as everywhere.
        extraKeys: { Tab: false, "Shift-Tab": false, Enter: breakLine, "Ctrl-/": "toggleComment" },
    });
    text = this.cm.getInputField();
    marks = new Marks(this.cm);
    wrapping = new Wrapping(this.cm);
    /** @type {string | null} */
    kept = null; // the source, until it changes
    /** @type {Mode | null} */
    found = null; // marks a text that is searched

    get source() {
        return (this.kept ??= this.cm.getValue());
    }

    /** Another source: what was typed before can't be brought back by undoing. */
    set source(source) {
        this.marks.forget();
        this.wrapping.comes(source.split("\n"), true);
        this.cm.setValue(source);
        this.cm.clearHistory();
        this.cm.scrollTo(0, 0);
    }

    /** The caret's line up to the caret. */
    get beforeCaret() {
        const { line, ch } = this.cm.getCursor();
        return this.textOf(line + 1).slice(0, ch);
    }

    /** The number of the line with the caret. */
    get line() {
        return this.cm.getCursor().line + 1;
    }

    /** How many lines there are. */
    get count() {
        return this.cm.lastLine() + 1;
    }

    /**
     * The text of a line.
     * @param {number} line
     */
    textOf(line) {
        return this.cm.getLine(line - 1) ?? "";
    }

    /**
     * The line at a place of the window, or 0.
     * @param {number} y
     */
    lineAt(y) {
        const line = this.cm.lineAtHeight(y, "window"), last = this.cm.heightAtLine(this.cm.lastLine() + 1, "window");
        return y < last ? line + 1 : 0;
    }

    /** Where what is selected begins and ends in the source. */
    get selection() {
        const [from, to] = ["from", "to"].map((end) => this.cm.indexFromPos(this.cm.getCursor(end)));
        return { from, to, text: this.cm.getSelection() };
    }

    /**
     * Selects a part of the source, and scrolls it into sight.
     * @param {number} from
     * @param {number} to
     */
    select(from, to) {
        this.cm.setSelection(this.cm.posFromIndex(from), this.cm.posFromIndex(to));
        this.show(this.line);
    }

    /**
     * Selects the place of a line's fault, or the whole line, and puts the focus on the text.
     * @param {number} line
     */
    goTo(line) {
        const text = this.textOf(line), fault = this.marks.faults.find((it) => it.line === line);
        const [before, place] = fault ? cutAt(text, fault) : ["", text], ch = before.length;
        this.cm.focus();
        this.cm.setSelection({ line: line - 1, ch }, { line: line - 1, ch: ch + place.length });
        this.show(line);
    }

    /**
     * Scrolls a line into sight, if it isn't there.
     * @param {number} line
     */
    show(line) {
        const top = this.cm.heightAtLine(line - 1, "local"), { top: from, clientHeight } = this.cm.getScrollInfo();
        const isSeen = from <= top && top <= from + clientHeight - 2 * this.cm.defaultTextHeight();
        if (!isSeen) this.cm.scrollTo(null, top - clientHeight / 3);
    }

    /**
     * Marks a text wherever it is, whatever the case.
     * @param {string} text
     */
    find(text) {
        const wanted = text.toLowerCase();
        if (this.found) this.cm.removeOverlay(this.found);
        this.found = null;
        if (!wanted) return;
        this.found = {
            token(/** @type {Stream} */ stream) {
                const at = stream.string.toLowerCase().indexOf(wanted, stream.pos), isHere = at === stream.pos;
                if (at < 0) stream.skipToEnd();
                else stream.pos = isHere ? at + wanted.length : at;
                return isHere ? "found" : null;
            },
        };
        this.cm.addOverlay(this.found);
    }

    /**
     * Draws all lines, for a print, or those in sight.
     * @param {boolean} isWhole
     */
    drawWhole(isWhole) {
        this.cm.setOption("viewportMargin", isWhole ? Infinity : 10);
        this.cm.refresh();
    }
}

CodeMirror.defineMode("rvboard", assembly);

export const editor = new Editor();

/**
 * Begins the editor: `onChange` is called when the source has changed by hand, and `onBreakpoint` gets the line whose
 * number is clicked.
 * @param {{ onChange: () => void, onBreakpoint: (line: number) => void }} calls
 */
export function makeEditor({ onChange, onBreakpoint }) {
    const { cm, text } = editor;
    const words = { id: "text", role: "textbox", "aria-multiline": "true", "aria-label": "Source", "aria-describedby": "faults" };
    for (const [name, value] of Object.entries(words)) text.setAttribute(name, value);
    cm.on("beforeChange", (_, { text: lines, update }) => {
        const isOdd = lines.some((it) => it.includes("\r")); // a text that is pasted, with other line ends
        if (isOdd) update?.(undefined, undefined, lines.join("\n").replace(/\r\n?/g, "\n").split("\n"));
    });
    cm.on("changes", (_, changes) => {
        editor.kept = null;
        editor.marks.moved();
        for (const { text: lines } of changes) editor.wrapping.comes(lines);
        if (changes.some(({ origin }) => origin !== "setValue")) onChange();
    });
    cm.on("gutterClick", (_, line) => onBreakpoint(line + 1));
    addEventListener("beforeprint", () => editor.drawWhole(true));
    addEventListener("afterprint", () => editor.drawWhole(false));
    new ResizeObserver(() => {
        editor.wrapping.set();
        cm.refresh();
    }).observe($("editor"));
    view(({ here, breakpoints, faults }) => [here, breakpoints, faults], (...marks) => editor.marks.show(...marks));
}
