// What is done with the board, one thing after another, and what is looked at then.
import { BoardLost } from "./client.mjs";
import { field } from "./dom.mjs";
import { editor } from "./editor.mjs";
import { COMMANDS, findLabels, goBack, loadProgram, look, paused, setBreakpoints, tell } from "./lab.mjs";
import { labelsOf } from "./language.mjs";
import { countLines } from "./lines.mjs";
import { download } from "./links.mjs";
import { Queue } from "./queue.mjs";
import { say, sayParts, showSent } from "./said.mjs";
import { change, state } from "./state.mjs";
import { tabs } from "./tabs.mjs";

const LABELS = 1000; // the most labels that are shown in memory
const MOST_PAGES = 65535; // the largest number of pages that can be passed: the lab refuses it
export const NO_PROGRAM = "No program is on the board: assemble one.";

export const queue = new Queue({ onBusy: showBusy, onError: fail });

/** @param {boolean} isBusy */
function showBusy(isBusy) {
    change({ isBusy, began: { time: performance.now(), steps: state.board.steps }, progress: null });
}

/**
 * Shows how far a run is, and what the program has sent meanwhile.
 * @param {number} steps
 * @param {string} sent
 */
export function showProgress(steps, sent) {
    const seconds = (performance.now() - state.began.time) / 1000;
    change({ progress: { steps, rate: (steps - state.began.steps) / seconds / 1e6 } });
    showSent(sent);
}

/** @param {Error} error */
export function fail(error) {
    if (error instanceof BoardLost) change({ assembled: null });
    change({ told: { parts: [], goesOn: false, files: {} } });
    say(error.message);
}

// ---- Looks

/**
 * Asks for all that a command may change, right behind it, and so without waiting for its answer.
 * @returns {Promise<Look> | null}
 */
function lookSoon() {
    if (state.assembled === null) return null;
    const looked = look(state.assembled, tabs.isListing);
    looked.catch(() => {}); // is told where it is waited for
    return looked;
}

/** Asks for all that is in sight, unless that was asked already, and shows it. */
async function refresh(looked = lookSoon()) {
    if (!looked) return;
    change({ board: await looked });
    markLines();
    await showTab();
}

/** Marks pc's line, which is scrolled into sight, and the breakpoints, if the source is still the one on the board. */
export function markLines({ isShown = true } = {}) {
    const { listing, marks } = state.board, isSame = editor.source === state.assembled;
    const here = isSame ? (listing.find(({ isHere }) => isHere)?.number ?? 0) : 0;
    change({ isSame, here, ...(isSame ? { breakpoints: new Set(marks) } : {}) });
    if (here && isShown) editor.show(here);
}

/** Asks what the open tab shows, and shows it. Answers that come after the tab has another question are dropped. */
export async function showTab() {
    let question, answer;
    do {
        question = tabs.question();
        answer = await question.ask(state);
    } while (tabs.isLate(question));
    tabs.show(question, answer, state);
}

// ---- Works

/**
 * Does something with the board, if nothing else is at work; an error is said.
 * @param {() => Promise<void>} act
 */
async function work(act) {
    if (queue.isBusy) return;
    await queue.work(act);
    if (state.assembled === null) tabs.wait(false);
    else if (tabs.isWaiting) queue.lookNow(showTab);
}

/**
 * Executes a command of the lab, says its answer, and shows the board. Undo goes back to the step `from`, and what goes
 * on with a run is noted as a part of it. `act` does it, by one call or more.
 * @param {string} line
 * @param {{ from?: number, goesOn?: boolean }} going
 */
export function command(line, going = {}, act = () => tell(line), isOne = true) {
    const asked = state.holds;
    return work(async () => {
        if (state.assembled === null) return say(NO_PROGRAM);
        if (state.holds !== asked) return sayTold(paused()); // before it began
        const done = act(), looked = isOne ? lookSoon() : undefined;
        await showDone(line, await done, going, looked);
    });
}

/**
 * Goes back to a step.
 * @param {number} to
 */
export function back(to) {
    const from = state.board.steps;
    return command(COMMANDS.back(from - to), {}, () => goBack(from, to), false);
}

/**
 * Shows the board after a command, and says its answer.
 * @param {string} line
 * @param {Told} told
 * @param {{ from?: number, goesOn?: boolean }} going
 * @param {Promise<Look> | null} [looked]
 */
async function showDone(line, told, { from = state.board.steps, goesOn = false }, looked) {
    const before = state.board.steps;
    if (!goesOn) change({ done: [...state.done, line] });
    await refresh(looked);
    const { steps } = state.board;
    if (steps !== before) change({ undone: Math.min(from, steps) });
    sayTold(told);
}

/**
 * Says what the lab has answered. Where a run is interrupted only to show a tab, nothing is said.
 * @param {Told} told
 */
function sayTold(told) {
    change({ told });
    if (!state.isLooking || !told.goesOn) sayParts(told.parts);
    for (const [name, text] of Object.entries(told.files)) download(name, text);
}

export const readPages = () => Math.min(MOST_PAGES, Math.max(0, Math.trunc(field("pages").valueAsNumber) || 0));

/** Assembles the source with its timed list, and boots the board. Breakpoints stay at their lines. */
export function assemble() {
    return work(async () => {
        const { source } = editor, lines = [...state.breakpoints];
        const given = field("inputs").value, pages = readPages();
        const { faults, text } = await loadProgram(source, given, pages);
        change({ given, pages, faults, assembled: text ? null : source, done: [], undone: 0 });
        if (text) return say(text);
        await setBreakpoints(lines);
        change({ labels: await findLabels(labelsOf(source, LABELS)) });
        await refresh();
        const count = countLines(source);
        say(`Assembled: ${count} ${count === 1 ? "line" : "lines"}. The board is at reset.`);
    });
}

/** @param {number} line */
export async function toggleBreakpoint(line) {
    if (editor.source !== state.assembled) await assemble();
    if (state.assembled === null) return;
    const isSet = !state.breakpoints.has(line);
    change({ breakpoints: new Set([...state.breakpoints, line]) }); // so that it is looked at
    await command(COMMANDS.breakpoint(line, isSet));
}

