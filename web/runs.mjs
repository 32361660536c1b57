// Runs: at the speed that is set, up to a pause, and with what is done between two of their pieces.
import { pauseRun } from "./client.mjs";
import { field } from "./dom.mjs";
import { COMMANDS } from "./lab.mjs";
import { say, sayParts } from "./said.mjs";
import { change, state } from "./state.mjs";
import { tabs } from "./tabs.mjs";
import { command, queue, showTab } from "./work.mjs";

export const BUSY = "The board runs: pause it first.";

const wait = (/** @type {number} */ milliseconds) => new Promise((wake) => setTimeout(wake, milliseconds));

/**
 * Runs at the speed that is set: at once, or some steps a second. A run that goes on began at the step `from`.
 */
export async function run({ from = state.board.steps, goesOn = false } = {}) {
    const mine = state.turns + 1;
    change({ turn: mine, turns: mine, runFrom: from });
    while (state.turn === mine) {
        const speed = Number(field("speed").value);
        await command(speed ? COMMANDS.runStep : COMMANDS.run, { from, goesOn: goesOn && !speed });
        if (state.turn !== mine) return;
        if (!speed || !state.told.goesOn) change({ turn: 0 });
        else await wait(1000 / speed);
    }
    if (state.board.steps > from) change({ undone: from });
}

/** Ends the run that is on, if there is one, between two of its pieces. */
function endRun() {
    change({ turn: 0, holds: state.holds + 1 });
    pauseRun();
}

export function pause() {
    change({ isStopped: true });
    endRun();
}

/**
 * Does something between two pieces of a run, which goes on then. Returns whether it was done.
 * @param {() => unknown} act
 */
export function interrupt(act, { isLook = false } = {}) {
    return queue.inTurn(async () => {
        if (queue.isBusy && !state.turn) await queue.soon();
        const resumes = state.turn > 0, from = state.runFrom;
        if (queue.isBusy && !resumes) {
            if (!isLook) say("The board is at work: pause it first.");
            return false;
        }
        change({ isLooking: isLook, isStopped: false });
        if (resumes) {
            endRun();
            await queue.current;
        }
        const source = state.assembled, isOver = !state.told.goesOn;
        await act();
        change({ isLooking: false });
        if (resumes && !isOver && !state.isStopped && state.assembled === source) run({ from, goesOn: true });
        else if (isLook && resumes && !isOver) sayParts(state.told.parts);
        return true;
    });
}

/** Shows another question of the tabs: at once; in a run between two of its pieces; or at the end of what is at work. */
export function changeTab() {
    if (state.assembled === null) return;
    if (!queue.isBusy) return queue.lookNow(showTab);
    tabs.wait();
    if (state.turn) interrupt(() => {}, { isLook: true });
}
