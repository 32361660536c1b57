// Lines that are wider than the editor go on below, under the comment or the statement that they continue.

/** @typedef {import("codemirror/lib/codemirror.js").default} CodeMirror */

const NARROW = 400; // pixels: a narrower editor wraps no line, so that more instructions are in sight
const LONGEST = 2000; // characters: with a longer line none is wrapped, since a browser takes long for it
const TAB = 8;
const LEFT = 0.75; // of the width: what begins farther right goes on below the statement
const PADDING = 4; // pixels, the editor's own

/**
 * The column of a place in a line.
 * @param {string} before what precedes it
 */
const columnOf = (before) => [...before].reduce((at, it) => (it === "\t" ? at + TAB - (at % TAB) : at + 1), 0);

/**
 * The column at which a line goes on, in an editor of so many columns.
 * @param {string} text
 * @param {number} columns
 */
export function hangingColumn(text, columns) {
    const [statement] = text.match(/^(?:[^#/"']|"[^"]*"?|'[^']*'?|\/(?!\/))*/) ?? [""], comment = text.slice(statement.length);
    const [mark] = comment.match(/^(?:#+|\/\/)?\s*/) ?? [""], column = columnOf(statement + mark);
    if (comment && column <= columns * LEFT) return column;
    return columnOf(text.match(/^\s*/)?.[0] ?? "") + TAB;
}

/**
 * Whether some lines are such that lines can be wrapped.
 * @param {string[]} lines
 */
const areShort = (lines) => lines.every(({ length }) => length <= LONGEST);

export class Wrapping {
    isShort = true; // whether no line is too long

    /** @param {CodeMirror} cm */
    constructor(cm) {
        this.cm = cm;
        cm.on("renderLine", (_, { text }, element) => {
            if (!this.isOn) return;
            const width = cm.defaultCharWidth(), columns = cm.getScrollInfo().clientWidth / width;
            const indent = hangingColumn(text, columns) * width;
            element.style.textIndent = `${-indent}px`;
            element.style.paddingLeft = `${indent + PADDING}px`;
        });
    }

    get isOn() {
        return this.isShort && this.cm.getWrapperElement().clientWidth >= NARROW;
    }

    /**
     * Another source comes, or lines are put in.
     * @param {string[]} lines
     */
    comes(lines, isAll = false) {
        this.isShort = areShort(lines) && (isAll || this.isShort);
        this.set();
    }

    /** Wraps lines, or doesn't, in an editor of the present size. */
    set() {
        if (this.cm.getOption("lineWrapping") !== this.isOn) this.cm.setOption("lineWrapping", this.isOn);
    }
}
