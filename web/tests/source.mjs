// Expressions for the page about its source: the text, the caret, and the marks of lines.
const quoted = (text) => JSON.stringify(text);

export const editor = `document.querySelector(".CodeMirror").CodeMirror`;
export const text = `${editor}.getValue()`;

// Replaces the whole text, as one who types it.
export const put = (it) => `${editor}.replaceRange(${quoted(it)}, { line: 0, ch: 0 }, { line: ${editor}.lastLine() + 1, ch: 0 })`;

// Selects a part of the text, from one index to another, and puts the focus there.
export const select = (from, to) => `{
    ${editor}.focus();
    ${editor}.setSelection(${editor}.posFromIndex(${from}), ${editor}.posFromIndex(${to}));
}`;

// Selects the first place of a text.
export const selectText = (it) => select(`${text}.indexOf(${quoted(it)})`, `${text}.indexOf(${quoted(it)}) + ${it.length}`);

// The mark beside a line, or nothing.
export const mark = (line) => `(${editor}.lineInfo(${line - 1})?.gutterMarkers?.marks?.textContent ?? "")`;

// All marks, each with its line.
export const marks = `(() => {
    const found = [];
    ${editor}.eachLine((it) => {
        const { line, gutterMarkers } = ${editor}.lineInfo(it);
        if (gutterMarkers?.marks) found.push(gutterMarkers.marks.textContent + (line + 1));
    });
    return found.join(" ");
})()`;

// Clicks the number of a line.
export async function clickLine(page, line) {
    await page.run(`${editor}.scrollIntoView({ line: ${line - 1}, ch: 0 }, 40)`);
    const { x, y } = await page.run(`(() => {
        const { top, bottom } = ${editor}.charCoords({ line: ${line - 1}, ch: 0 }, "window");
        return { x: ${editor}.getGutterElement().getBoundingClientRect().right - 20, y: (top + bottom) / 2 };
    })()`);
    for (const type of ["mousePressed", "mouseReleased"]) {
        await page.call("Input.dispatchMouseEvent", { type, x, y, button: "left", clickCount: 1 });
    }
}

// Types over the first place of a text, and waits until it is there: what comes from no key is read a little later.
export async function typeOver(page, old, new_) {
    const before = await page.run(text), at = before.indexOf(old);
    await page.run(selectText(old));
    await page.type(new_);
    await page.until(`${text} === ${quoted(before.slice(0, at) + new_ + before.slice(at + old.length))}`);
}
