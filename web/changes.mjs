// Where a register last changed: the run is repeated in a lab of its own, and looked through from close to its end on.
import { RUNNING } from "./board.mjs";
import { encode } from "./lines.mjs";

const WINDOWS = [1000, 50000, 1000000, 20000000]; // steps before the present that are looked through, one after another
const FARTHEST = 20000000; // the longest run that is repeated
const PATIENCE = 2000; // milliseconds

/** @typedef {import("./board.mjs").Board} Board */

/**
 * Executes a command to its end.
 * @param {Board} lab
 * @param {string} line
 * @param {() => Promise<void>} breathe lets other calls come between
 */
async function execute(lab, line, breathe) {
    let reply = lab.command(encode(line));
    while (reply.next === RUNNING) {
        await breathe();
        reply = lab.goOn();
    }
    return reply.answer;
}

/**
 * The last step in a part of the run after which a register is another one, or 0 where there is none.
 * @param {Board} lab
 * @param {number} from
 * @param {number} to
 * @param {string} register
 * @param {() => Promise<void>} breathe
 */
async function lastIn(lab, from, to, register, breathe) {
    const late = performance.now() + PATIENCE;
    let last = 0, before = -1;
    if (from) await execute(lab, `s ${from}`, breathe);
    while (lab.steps() > before) {
        before = lab.steps();
        const { ending } = await execute(lab, `until ${register}`, breathe);
        if (lab.steps() > to || (ending !== "reached" && ending !== "limit")) break;
        if (ending === "reached") last = lab.steps();
        if (performance.now() > late) throw new Error("it changes too often to be found soon");
    }
    return last;
}

/**
 * The step with which a register last changed up to another one, where pc was before it, and the value then; no step where
 * it never did; or that the run is too long to be repeated. `open` opens a lab of the run at reset.
 * @param {() => Board} open
 * @param {number} steps
 * @param {string} register
 * @param {() => Promise<void>} breathe
 */
export async function lastChange(open, steps, register, breathe) {
    if (steps > FARTHEST) return { isLong: true };
    let step = 0;
    for (const count of WINDOWS) {
        if (!step && steps) step = await lastIn(open(), Math.max(0, steps - count), steps, register, breathe);
        if (steps <= count) break;
    }
    if (!step) return { isLong: false };
    const lab = open();
    if (step > 1) await execute(lab, `s ${step - 1}`, breathe);
    const [{ here }, { value }] = lab.look(["w", `r ${register}`]);
    return { isLong: false, step, here, value };
}
