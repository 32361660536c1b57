// What the lab answers (docs/JSON.md), as the page's values. `lab.mjs` alone imports this.
import { barred } from "./lines.mjs";

const REGISTERS = "zero ra sp gp tp t0 t1 t2 s0 s1 a0 a1 a2 a3 a4 a5 a6 a7 s2 s3 s4 s5 s6 s7 s8 s9 s10 s11 t3 t4 t5 t6".split(" ");

/**
 * The label at a place or before it, with its distance, or nothing.
 * @param {Place} place
 */
const labelText = ({ label, distance }) => (label === null ? "" : distance ? `${label}+${distance}` : label);

/**
 * The registers, pc and the mode, from `r`.
 * @param {{ before: number[], now: number[], mode: string, here: Place }} answer
 */
export function registersOf({ before, now, mode, here }) {
    const registers = REGISTERS.map((name, i) => ({ name, value: now[i], isChanged: now[i] !== before[i] }));
    return { registers, pc: here.address, label: labelText(here), mode };
}

/**
 * The lines of the listing, from `l`, with the texts of the source's lines.
 * @param {any} answer
 * @param {string[]} lines
 * @returns {Row[]}
 */
export function rowsOf({ kind, rows }, lines) {
    if (kind !== "list") return [];
    return rows.map((/** @type {any} */ { number, is_here, is_marked, address, word }) => ({
        number,
        isHere: is_here,
        isMarked: is_marked,
        address: address ?? undefined,
        word: word ?? undefined,
        text: lines[number - 1] ?? "",
    }));
}

/**
 * Bytes of memory, from `m`, or why it was refused.
 * @param {any} answer
 * @param {string} text what the lab says of a refusal
 * @returns {Memory}
 */
export function memoryOf({ kind, address, cells }, text) {
    if (kind !== "memory") return { at: 0, bytes: [], refused: text };
    return { at: address, bytes: cells.map((/** @type {number | null} */ byte) => byte ?? undefined), refused: "" };
}

const FIELDS = /** @type {Record<string, string>} */ ({ mie: "MIE", mpie: "MPIE", mpp: "MPP", mprv: "MPRV", tw: "TW" });

/**
 * A control register by field, from `p`.
 * @param {any} answer
 * @returns {Control}
 */
export function controlOf({ name, value, bits }) {
    const { kind: _, ...all } = bits ?? {};
    const fields = Object.entries(all).map(([field, value]) => `${FIELDS[field] ?? field} ${Number(value)}`);
    return { name, word: value === null ? "--------" : value.toString(16).padStart(8, "0"), fields: fields.join("  ") };
}

const EDGES = 24; // the first source that asks at each rise

/**
 * What the interrupt controller says of its sources, by number, from `dev`.
 * @param {any} answer
 * @returns {Record<number, Source>}
 */
function sourcesOf({ sources }) {
    const values = sources.map((/** @type {any} */ { source, is_pending, is_claimed, is_enabled, priority, edges }) => ({
        number: source,
        request: is_pending ? "pending" : is_claimed ? "claimed and not completed" : "",
        isEnabled: is_enabled,
        priority,
        edges: source < EDGES ? 0 : edges,
    }));
    return Object.fromEntries(values.map((/** @type {Source} */ it) => [it.number, it]));
}

/** @param {{ read: boolean, write: boolean, execute: boolean }} rights */
const rightsText = ({ read, write, execute }) => `${read ? "r" : "-"}${write ? "w" : "-"}${execute ? "x" : "-"}`;

/**
 * The entries of protection that match some bytes, from `dev`.
 * @param {any} answer
 * @returns {Region[]}
 */
function regionsOf({ regions }) {
    const there = regions.filter((/** @type {any} */ { range }) => range);
    return there.map((/** @type {any} */ { entry, range, user, machine, is_locked }) => ({
        entry,
        ...range,
        user: rightsText(user),
        machine: rightsText(machine),
        isLocked: is_locked,
    }));
}

/**
 * The sources of interrupts and the entries of protection, from `dev`.
 * @param {any} answer
 */
export const devicesOf = (answer) => ({ sources: sourcesOf(answer), regions: regionsOf(answer) });

/**
 * The causes and mtval of the traps, the last one last, from `t`.
 * @param {{ traps: { cause: number, value: number }[] }} answer
 * @returns {Trap[]}
 */
export const trapsOf = ({ traps }) => traps.map(({ cause, value }) => ({ cause, tval: value }));

// ---- Sources

/**
 * The faults of a refused source; or one at no line where a timed list or a size is refused.
 * @param {Refused | null} refused
 * @returns {Fault[]}
 */
export function faultsOf(refused) {
    if (!refused) return [];
    const { text, value } = refused;
    if (!value) return [{ line: 0, before: 0, length: 0, sentence: text.trim(), advice: "" }];
    return value.faults.map(({ line, column, length, name, message, advice }) => {
        return { line, before: column - 1, length, sentence: `${name}: ${message}`, advice };
    });
}

// ---- Commands

/**
 * What is told of a command: what the program has sent, and the lab's own words.
 * @param {string} text
 * @param {boolean} goesOn
 * @returns {Told}
 */
export function toldOf(text, goesOn, sent = "") {
    const parts = [{ text: barred(sent), isSent: true }, { text: text.trimEnd(), isSent: false }];
    return { parts: parts.filter((part) => part.text), goesOn, files: {} };
}

/**
 * Whether an answer leaves a run that may go on: one that took as many steps as it may, and that a breakpoint ends.
 * @param {Answer} answer
 */
export const mayGoOn = ({ kind, ending, aim }) => kind === "ended" && ending === "limit" && aim === "breakpoint";

/**
 * Whether a step or a run leaves the board where no memory is: a trap met no handler.
 * @param {Answer} answer
 */
export function isLost({ kind, standing }) {
    if (!standing || (kind !== "stepped" && kind !== "ended")) return false;
    return standing.halted === null && standing.here.word === null;
}

// ---- Inputs

/**
 * What `save` answers. rvboard takes a number of steps at most.
 * @param {{ list: string, commands: string, steps: number, limit: number, pages: number }} answer
 * @returns {Saved}
 */
export function savedOf({ list, commands, steps, limit, pages }) {
    const left = steps > limit ? ` # without the last ${steps - limit} steps` : "";
    return { inputs: list, commands, options: `--steps ${limit} --pages ${pages}${left}` };
}

/**
 * The files that `save NAME` is to write, by name.
 * @param {any} answer
 * @returns {Record<string, string>}
 */
export function filesOf({ kind, name, list, commands }) {
    return kind === "saved" && name !== null ? { [`${name}.input`]: list, [`${name}.commands`]: commands } : {};
}

/**
 * The level of each interrupt line after some steps: that of its last input in a timed list up to there.
 * @param {string} list
 * @param {number} steps
 * @returns {Record<number, boolean>}
 */
export function levelsOf(list, steps) {
    const inputs = list.split("\n").map((line) => line.split(" ")).filter(([, kind]) => kind === "line");
    const past = inputs.filter(([step]) => Number(step) <= steps);
    return Object.fromEntries(past.map(([, , number, level]) => [Number(number), level === "1"]));
}
