// The page: what its controls and forms do, and how it begins.
import { startBoard } from "./client.mjs";
import { makeControls } from "./controls.mjs";
import { makeDialogs } from "./dialogs.mjs";
import { $, field, targetOf } from "./dom.mjs";
import { editor, makeEditor } from "./editor.mjs";
import { makeFaults } from "./faults.mjs";
import { Files } from "./files.mjs";
import { COMMANDS, checkProgram } from "./lab.mjs";
import { encode } from "./lines.mjs";
import { makeLessons } from "./lessons.mjs";
import { download, isEmbedded } from "./links.mjs";
import { makeFinder } from "./finder.mjs";
import { makeHint } from "./hint.mjs";
import { makeMemory } from "./memory.mjs";
import { makeLines } from "./panels.mjs";
import { makePanes } from "./panes.mjs";
import { makeRegisters } from "./registers.mjs";
import { BUSY, changeTab, interrupt, pause, run } from "./runs.mjs";
import { makeSaid, say } from "./said.mjs";
import { PAGES, change, state, view } from "./state.mjs";
import { makeTabs, tabs } from "./tabs.mjs";
import { makeWords } from "./words.mjs";
import { NO_PROGRAM, assemble, back, command, fail, markLines, queue, readPages } from "./work.mjs";
import { showProgress, toggleBreakpoint } from "./work.mjs";

const TYPED = 200; // milliseconds without a key before what is typed is checked
const LINES_CHECKED = 200; // for which it is checked a millisecond later

// ---- What is typed

/** What is typed in the page. */
function readTexts() {
    const { source } = editor, inputs = field("inputs").value, breakpoints = [...state.breakpoints];
    return { source, inputs, breakpoints, pages: readPages() };
}

/** What a link holds of the page. Where the timed list is the one on the board, what was given by hand is in it. */
function readState() {
    const texts = readTexts();
    return { ...texts, inputs: texts.inputs === state.given ? state.board.saved.inputs : texts.inputs };
}

/**
 * Puts a program into the page, and assembles it; returns whether it did.
 * @param {Program} program
 */
async function loadState({ source, inputs, breakpoints = [], pages = PAGES }) {
    if (queue.isBusy && !state.turn) await queue.soon(queue.turns);
    if (queue.isBusy || state.turn) {
        say(BUSY);
        return false;
    }
    field("inputs").value = inputs;
    field("pages").value = String(pages);
    editor.source = source;
    change({ breakpoints: new Set(breakpoints) });
    await assemble();
    return true;
}

const files = new Files({ texts: readTexts, state: readState, load: loadState });

/** @type {ReturnType<typeof setTimeout> | undefined} */
let typing; // the timer of the next check

/** Marks what is typed as it is checked, which assembles it; the board stays as it is. */
function typed() {
    if (state.isSame) change({ isSame: false, here: 0 });
    checkSoon();
}

function checkSoon() {
    clearTimeout(typing);
    typing = setTimeout(() => checkSource().catch(fail), TYPED + editor.count / LINES_CHECKED);
}

/** What is found of a text that has changed meanwhile is dropped: it is checked again. */
async function checkSource() {
    files.keep();
    if (!state.isSame && editor.source === state.assembled && !queue.isBusy) markLines({ isShown: false });
    const checked = readTexts(), faults = await checkProgram(checked.source, checked.inputs, checked.pages);
    const now = readTexts();
    const isSame = checked.source === now.source && checked.inputs === now.inputs && checked.pages === now.pages;
    if (isSame) change({ faults });
}

/** @param {number} line */
async function setOrClear(line) {
    await toggleBreakpoint(line);
    files.keep();
}

// ---- Controls

/**
 * What each control does, by its id: `always` also without a program, and `whileRunning` only then.
 * @type {Record<string, { act: () => unknown, always?: boolean, whileRunning?: boolean }>}
 */
const ACTS = {
    assemble: { act: assemble, always: true },
    run: { act: () => run() },
    pause: { act: pause, whileRunning: true },
    step: { act: () => command(COMMANDS.step) },
    over: { act: () => command(COMMANDS.over) },
    out: { act: () => command(COMMANDS.out) },
    back: { act: () => back(Math.max(0, state.board.steps - 1)) },
    undo: { act: () => back(state.undone) },
    reset: { act: () => back(0) },
    trap: { act: () => command(COMMANDS.trap) },
    why: { act: () => command(COMMANDS.why) },
    break: { act: () => setOrClear(editor.line), always: true },
};

/** @param {string} id */
function isOn(id) {
    const { always, whileRunning } = ACTS[id];
    if (queue.isBusy || state.turn) return whileRunning === true;
    return !whileRunning && (always === true || state.assembled !== null);
}

/**
 * Presses a control: after what is at work, if that ends soon.
 * @param {string} id
 */
async function press(id) {
    if (queue.isBusy && !state.turn && !isOn(id)) {
        if (state.isPressed) return;
        change({ isPressed: true });
        await queue.soon(queue.turns);
        change({ isPressed: false });
    }
    if (isOn(id)) return ACTS[id].act();
    if (queue.isBusy || state.turn) return say(BUSY);
    say(ACTS[id].whileRunning ? "Nothing runs." : NO_PROGRAM);
}

/**
 * Sends a text to the serial port, as bytes in hexadecimal, some in each command.
 * @param {string} text
 */
async function send(text) {
    const line = text + (field("send-line").checked ? "\n" : "");
    const bytes = [...encode(line)].map((byte) => byte.toString(16).padStart(2, "0"));
    for (let at = 0; at < bytes.length; at += 300) await command(COMMANDS.receive(bytes.slice(at, at + 300).join(" ")));
}

/**
 * A form with a line: its button and Enter do something with that, and arrows bring back what was given. Nothing is
 * submitted: a frame may not.
 * @param {string} form
 * @param {string} line
 * @param {(text: string) => unknown} act
 */
function makeForm(form, line, act) {
    /** @type {string[]} */
    const given = [];
    let at = 0; // the place of what is shown among what was given
    const give = async () => {
        const text = field(line).value;
        if (text && text !== given[given.length - 1]) given.push(text);
        at = given.length;
        field(line).value = "";
        if (!(await interrupt(() => act(text)))) field(line).value = text;
    };
    $(form).addEventListener("submit", (event) => event.preventDefault());
    $(form).querySelector("button")?.addEventListener("click", give);
    $(line).addEventListener("keydown", (event) => {
        const move = { ArrowUp: -1, ArrowDown: 1 }[event.key] ?? 0;
        if (event.isComposing || (event.key !== "Enter" && !move)) return;
        event.preventDefault();
        if (!move) return give();
        at = Math.min(given.length, Math.max(0, at + move));
        field(line).value = given[at] ?? "";
    });
}

function makePanels() {
    $("panel-listing").addEventListener("click", (event) => {
        const line = Number(targetOf(event, "tr")?.dataset.line);
        if (line) interrupt(() => setOrClear(line));
    });
    $("lines").addEventListener("click", (event) => {
        const button = /** @type {HTMLButtonElement | null} */ (targetOf(event, "[role=switch]"));
        const isHigh = button?.getAttribute("aria-checked") !== "true";
        if (button) interrupt(() => command(COMMANDS.level(button.value, isHigh)));
    });
    for (const id of ["inputs", "pages"]) $(id).addEventListener("input", checkSoon);
    $("save-input").addEventListener("click", () => download("lab.input", state.board.saved.inputs));
    $("save-commands").addEventListener("click", () => download("lab.commands", state.board.saved.commands));
}

async function start() {
    document.body.classList.toggle("embed", isEmbedded());
    makePanes();
    makeLessons({
        readProgram: readTexts,
        putProgram: (program, name, link) => files.putLesson(program, name, link),
        mayReplace: () => files.mayReplace(),
    });
    makeSaid();
    makeWords();
    makeEditor({ onChange: typed, onBreakpoint: (line) => interrupt(() => setOrClear(line)) });
    makeFinder();
    makeFaults();
    makeRegisters();
    makeTabs(changeTab);
    makeHint();
    makeLines();
    makeMemory(() => tabs.changed());
    makeDialogs();
    makeControls(press, isOn);
    makeForm("send", "send-text", send);
    makeForm("ask", "ask-line", (line) => command(line));
    makePanels();
    $("speed").addEventListener("change", () => state.turn && interrupt(() => {}));
    view(({ assembled, isSame }) => [assembled === null || isSame], (is) => ($("stale").hidden = is));
    files.listen();
    const program = Uint8Array.from(atob(($("wasm").textContent ?? "").trim()), (it) => it.charCodeAt(0));
    await startBoard(program, { onProgress: showProgress, onLost: fail });
    await files.begin();
    document.body.dataset.ready = "yes";
}

start().catch((error) => say(`The page can't run in this browser: ${error.message}`));
