// The page's side of the worker: each call is answered once, and a long run tells its progress. A worker that ends, or
// doesn't heed a pause, is replaced by a new one.
import { $ } from "./dom.mjs";

const PATIENCE = 10000; // milliseconds in which a pause has to be heeded
const address = URL.createObjectURL(new Blob([$("worker").textContent ?? ""], { type: "text/javascript" }));
/** @type {Map<number, { resolve: (result: any) => void, reject: (error: Error) => void }>} */
const waiting = new Map(); // by number: what waits for the answer
let calls = 0;
/** @type {Worker} */
let worker;
/** @type {Uint8Array} */
let program; // board.wasm, which it runs
/** @type {(steps: number, sent: string) => void} */
let show; // tells the page of a run's progress
/** @type {(error: Error) => void} */
let tellLost; // tells the page of a board that is lost

// The error of a call after which the board is another one, without a program.
export class BoardLost extends Error {
    /** @param {string} why */
    constructor(why) {
        super(`The board was lost by an error (${why}) and made anew: assemble again.`);
    }
}

/**
 * What the worker answers to a call.
 * @param {string} act
 * @param {unknown[]} words
 * @returns {Promise<any>}
 */
export function call(act, ...words) {
    return new Promise((resolve, reject) => {
        waiting.set(++calls, { resolve, reject });
        worker.postMessage({ id: calls, act, words });
    });
}

/**
 * Gives an answer to the call that it names. One that nobody waits for is dropped.
 * @param {{ id: number, result?: unknown, failed?: string, lost?: boolean, steps?: number, sent?: string }} answer
 */
function receive({ id, result, failed, lost, steps, sent = "" }) {
    const waits = waiting.get(id);
    if (!waits) return;
    if (steps !== undefined) return show(steps, sent);
    const { resolve, reject } = waits;
    waiting.delete(id);
    if (failed === undefined) return resolve(result);
    reject(lost ? new BoardLost(failed) : new Error(failed));
}

/** Begins a worker that runs board.wasm. */
function begin() {
    worker = new Worker(address);
    worker.onmessage = ({ data, target }) => target === worker && receive(data);
    worker.onerror = (event) => {
        event.preventDefault();
        replace(event.message || "it ended");
    };
    return call("start", program);
}

/**
 * Ends the worker, and all calls that wait for it, and begins another.
 * @param {string} why
 */
function replace(why) {
    worker.terminate();
    const lost = [...waiting.values()];
    waiting.clear();
    begin().catch(() => {}); // each later call fails, too, and says why
    for (const { reject } of lost) reject(new BoardLost(why));
    tellLost(new BoardLost(why));
}

/**
 * Begins the board; `onProgress` gets, for each long run, its steps so far and what the program has sent since the last
 * time, and `onLost` the error of a worker that was replaced.
 * @param {Uint8Array} bytes
 * @param {{ onProgress: (steps: number, sent: string) => void, onLost: (error: Error) => void }} calls
 */
export function startBoard(bytes, { onProgress, onLost }) {
    [program, show, tellLost] = [bytes, onProgress, onLost];
    return begin();
}

/** Ends a run between two of its pieces. If what is under way goes on for long all the same, the worker is replaced. */
export function pauseRun() {
    const asked = [...waiting.keys()];
    worker.postMessage({ act: "pause" });
    setTimeout(() => {
        if (asked.some((id) => waiting.has(id))) replace("it didn't pause");
    }, PATIENCE);
}
