// The completion of words in the source: Control and the space bar list what the word at the caret may be.
import { editor } from "./editor.mjs";
import { namesOf } from "./language.mjs";
import { offersFor } from "./reference.mjs";
import { state } from "./state.mjs";

const NAMES_LISTED = 5000; // of a source that are offered

/** The words that fit at the caret, and what they take the place of. */
function offer() {
    const registers = state.board.registers.map(({ name }) => name), to = editor.cm.getCursor();
    const { typed, offered } = offersFor(editor.beforeCaret, registers, namesOf(editor.source.split("\n"), NAMES_LISTED));
    return { list: offered, from: { ...to, ch: to.ch - typed.length }, to };
}

export function makeWords() {
    editor.cm.addKeyMap({ "Ctrl-Space": () => editor.cm.showHint({ hint: offer }) });
}
