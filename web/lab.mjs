// The lab as the page sees it: what it is asked and told, and its answers as values. Nothing else in the page knows how
// the lab writes them.
import { call } from "./client.mjs";
import { Listed } from "./listed.mjs";
import {
    controlOf,
    devicesOf,
    faultsOf,
    filesOf,
    isLost,
    levelsOf,
    mayGoOn,
    memoryOf,
    registersOf,
    rowsOf,
    savedOf,
    toldOf,
    trapsOf,
} from "./values.mjs";

const LISTED = 1000; // lines that are listed at once
const NEAR_PC = 9; // lines that are listed after each step
const SHOWN = 4096; // bytes of memory that are shown at once
const LEFT = "The page has no end but that of its tab. What is typed is kept.";
const LESSON_STEPS = 2000000; // that the program of a lesson may take
const MOST_STEPS = 1000000000; // of a command
const REPLAYED = 3000000; // the most steps that are run again in one piece to go back
const RECENT = 10000000; // the steps behind the present where the lab has kept states close to each other

/**
 * What commands that only look answer, as text for people.
 * @param {string[]} lines
 * @returns {Promise<string[]>}
 */
const ask = (...lines) => call("ask", lines);

/**
 * What commands that only look answer, as values. The board stays as it is.
 * @param {string[]} lines
 * @returns {Promise<any[]>}
 */
const lookAt = async (...lines) => (await call("look", lines)).answers;

// ---- Sources

/**
 * Why a source is refused, or nothing. The board stays as it is.
 * @param {string} source
 * @param {string} inputs
 * @param {number} pages
 * @returns {Promise<Fault[]>}
 */
export const checkProgram = async (source, inputs, pages) => faultsOf(await call("check", source, inputs, pages));

/**
 * Puts a source on the board, or returns why it is refused.
 * @param {string} source
 * @param {string} inputs
 * @param {number} pages
 */
export async function loadProgram(source, inputs, pages) {
    /** @type {Refused | null} */
    const refused = await call("load", source, inputs, pages);
    return { faults: faultsOf(refused), text: refused?.text.trimEnd() ?? "" };
}

/**
 * The addresses of those names that have one.
 * @param {string[]} names
 * @returns {Promise<Label[]>}
 */
export async function findLabels(names) {
    const answers = await lookAt(...names.map((name) => `i ${name}`));
    return answers.flatMap(({ kind, place }, i) => (kind === "instruction" ? [{ name: names[i], at: place.address }] : []));
}

/**
 * Runs a program in a lab of its own. Returns why it is refused, or how it ended, the values of names, and the words of
 * memory at places.
 * @param {Program} program
 * @param {string[]} names
 * @param {string[]} places
 */
export async function examine({ source, inputs, pages }, names, places) {
    const lines = ["w", "r", "t", ...[...names, ...places].map((it) => `i ${it}`)];
    const { fault, answers, console, steps } = await call("examine", source, inputs, pages, LESSON_STEPS, lines);
    const values = new Map(), words = new Map();
    if (fault) return { faults: faultsOf(fault), run: null, names: values, words };
    const [{ halted }, registers, traps, ...found] = /** @type {any[]} */ (answers), there = found.map(({ place }) => place);
    names.forEach((name, i) => there[i] && values.set(name, there[i].address));
    places.forEach((place, i) => words.set(place, there[names.length + i]?.word ?? undefined));
    const run = { halted, steps, console, registers: registersOf(registers).registers, traps: trapsOf(traps) };
    return { faults: [], run, names: values, words };
}

/**
 * Where a register last changed in the run of a program, up to a step.
 * @param {Program} program
 * @param {number} steps
 * @param {string} register
 * @returns {Promise<Changed>}
 */
export const lastChange = ({ source, inputs, pages }, steps, register) =>
    call("changed", source, inputs, pages, steps, register);

// ---- Commands

/**
 * Executes a command, and explains a trap that met no handler.
 * @param {string} line
 * @returns {Promise<Told>}
 */
export async function tell(line) {
    const { answer, text, sent, isPaused, isLeft } = await call("command", line);
    const [why] = !isPaused && isLost(answer) ? await ask("why") : [isLeft ? LEFT : ""];
    return { ...toldOf(text + why, isPaused || mayGoOn(answer), sent), files: filesOf(answer) };
}

/** @param {number[]} lines */
export const setBreakpoints = (lines) => ask(...lines.map((line) => `b ${line}`));

/**
 * The commands of the page's controls.
 */
export const COMMANDS = {
    run: `c ${MOST_STEPS}`,
    runStep: "c 1",
    step: "s",
    over: "next",
    out: "finish",
    trap: "until trap",
    why: "why",
    breakpoint: (/** @type {number} */ line, /** @type {boolean} */ isSet) => `${isSet ? "b" : "d"} ${line}`,
    level: (/** @type {string} */ number, /** @type {boolean} */ isHigh) => `line ${number} ${isHigh ? 1 : 0}`,
    receive: (/** @type {string} */ bytes) => `rx ${bytes}`,
    back: (/** @type {number} */ count) => `u ${count}`,
};

/**
 * Goes from a step back to another: by the lab's own command to one near to the start or to the present, where a state
 * was kept not far before it. Else the board runs there from reset in pieces, so that a pause comes through.
 * @param {number} from
 * @param {number} to
 */
export async function goBack(from, to) {
    if (to <= REPLAYED || from - to <= RECENT || to > MOST_STEPS) return tell(COMMANDS.back(from - to));
    await call("command", `u ${from}`);
    await call("command", `s ${to}`);
    const [, where] = await ask("s 0", "w"), isThere = (await call("steps")) === to;
    return toldOf(`${isThere ? `back at step ${to}` : "paused"}\n${where}`, !isThere);
}

/** @returns {Told} */
export const paused = () => toldOf("paused", true);

// ---- Looks

/**
 * The command that lists a source of up to 1,000 lines, and else the lines round pc.
 * @param {Listed} listed
 */
const listCommand = ({ lines }) => (lines.length <= LISTED ? `l ${LISTED / 2} ${LISTED}` : `l pc ${LISTED / 2}`);

let listed = new Listed("");

/**
 * All that a click may change, for a source that is on the board. Its listing is asked for once, and then the lines round
 * pc, unless a fresh one is wanted.
 * @param {string} source
 * @returns {Promise<Look>}
 */
export async function look(source, isFresh = false) {
    if (listed.source !== source) listed = new Listed(source);
    const mine = listed, isWhole = isFresh || !mine.rows.length;
    const { steps, console, saved, answers } = await call("look", ["r", "b", isWhole ? listCommand(mine) : `l pc ${NEAR_PC}`]);
    const [registers, { places }, list] = answers, here = registers.here.line ?? 0;
    mine.take(rowsOf(list, mine.lines), isWhole);
    if (!mine.has(here)) mine.take(rowsOf((await lookAt(listCommand(mine)))[0], mine.lines), true);
    const unknown = mine.unknown(places), found = unknown.length ? await lookAt(...unknown.map((line) => `l ${line} 1`)) : [];
    for (const it of found) mine.take(rowsOf(it, mine.lines));
    const marks = mine.marks(places), listing = mine.listing(here, marks), levels = levelsOf(saved.list, steps);
    return { steps, ...registersOf(registers), listing, marks, saved: savedOf(saved), levels, console };
}

/**
 * A line of the source that is on the board, with its word now.
 * @param {number} line
 * @returns {Promise<Row | undefined>}
 */
export const lookRow = async (line) => rowsOf((await lookAt(`l ${line} 1`))[0], [])[0];

/**
 * Bytes of memory from a place on, which is what `m` takes.
 * @param {string} where
 * @param {number} count
 */
export async function lookMemory(where, count) {
    const line = `m ${where} ${Math.min(count, SHOWN)}`, [answer] = await lookAt(line);
    return memoryOf(answer, answer.kind === "memory" ? "" : (await ask(line))[0]);
}

/** @param {string[]} names */
export const lookControl = async (names) => (await lookAt(...names.map((name) => `p ${name}`))).map(controlOf);

/** The devices as they are told, up to the lines of the sources, and the sources and the entries of protection. */
export async function lookDevices() {
    const [[answer], [text]] = await Promise.all([lookAt("dev"), ask("dev")]);
    return { text, ...devicesOf(answer) };
}

/** The entries of protection, and the last traps. */
export async function lookProtection() {
    const [devices, traps] = await lookAt("dev", "t");
    return { regions: devicesOf(devices).regions, traps: trapsOf(traps) };
}

/**
 * The last traps as they are told, and the explanation of one where that is asked for.
 * @param {boolean} withWhy
 */
export async function tellTraps(withWhy) {
    const [text, why] = await ask(...(withWhy ? ["t", "why"] : ["t"]));
    return { text, why };
}
