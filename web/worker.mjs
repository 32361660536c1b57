// The page's worker: one lab that is run and asked, and one that only assembles what is typed. A long run
// goes in pieces, between which the pause and the page's questions come through.
import { Board, QUIT, RUNNING, decode } from "./board.mjs";
import { lastChange } from "./changes.mjs";
import { encode, joinBytes } from "./lines.mjs";

const PROGRESS = 100; // milliseconds between two reports of a long run
const TURN = 12; // milliseconds that a piece of a run shall take
const ASIDE = ["check", "examine", "changed"]; // what is done in labs of its own, beside the queue
const PIECES = { least: 1000, most: 10000000 }; // steps of a piece

/** @type {WebAssembly.Module} */
let module;
/** @type {Board} */
let lab;
/** @type {Board} */
let checker;
let paused = false;
let told = 0; // how many bytes of the console the page has
let decoder = new TextDecoder(); // of those that it gets in a long run
let asked = 0; // the number of the call of the queue that is answered

function renew() {
    lab = new Board(module);
    checker = new Board(module);
}

/** Tells the page how far a long run is, and what the program has sent meanwhile. */
function report() {
    const more = lab.console(told);
    told += more.length;
    postMessage({ id: asked, steps: lab.steps(), sent: decoder.decode(more, { stream: true }) });
}

/** Lets waiting messages come in. */
function breathe() {
    return /** @type {Promise<void>} */ (new Promise((done) => {
        const { port1, port2 } = new MessageChannel();
        port2.onmessage = () => {
            port2.close();
            done();
        };
        port1.postMessage(null);
    }));
}

/** Goes on with the run by a piece, and makes the next piece longer or shorter by the time that this one took. */
function goOn() {
    const began = performance.now(), answer = lab.goOn();
    const factor = Math.min(4, TURN / Math.max(1, performance.now() - began));
    lab.piece = Math.round(Math.min(PIECES.most, Math.max(PIECES.least, lab.piece * factor)));
    return answer;
}

/**
 * The text of a piece of a trace, which tells its steps. Any other run tells its end alone.
 * @param {{ answer: { kind: string }, text: string }} reply
 */
const traceOf = ({ answer, text }) => (answer.kind === "traced" ? text : "");

/** @type {Record<string, (...words: any[]) => unknown>} */
const acts = {
    /** @param {Uint8Array} bytes */
    async start(bytes) {
        module = await WebAssembly.compile(bytes);
        renew();
    },

    /**
     * Why a source is refused, or nothing.
     * @param {string} source
     * @param {string} inputs
     * @param {number} pages
     */
    check: (source, inputs, pages) => checker.load(encode(source), encode(inputs), pages),

    /**
     * @param {string} source
     * @param {string} inputs
     * @param {number} pages
     */
    load: (source, inputs, pages) => lab.load(encode(source), encode(inputs), pages),

    /**
     * Executes a command line to its end, or up to a pause.
     * @param {string} line
     */
    async command(line) {
        paused = false;
        decoder = new TextDecoder();
        let reply = lab.command(encode(line)), reported = performance.now();
        const sent = [reply.sent];
        let trace = traceOf(reply);
        while (reply.next === RUNNING && !paused) {
            if (performance.now() - reported > PROGRESS) {
                report();
                reported = performance.now();
            }
            await breathe();
            reply = goOn();
            sent.push(reply.sent);
            trace += traceOf(reply);
        }
        const isPaused = reply.next === RUNNING;
        const text = isPaused ? `${trace}paused\n${lab.ask("w")}` : trace || reply.text;
        return { answer: reply.answer, text, sent: decode(joinBytes(sent)), isPaused, isLeft: reply.next === QUIT };
    },

    /**
     * Runs a program in a lab of its own, and returns why it is refused, or what the lab answers then.
     * @param {string} source
     * @param {string} inputs
     * @param {number} pages
     * @param {number} steps
     * @param {string[]} lines
     */
    async examine(source, inputs, pages, steps, lines) {
        const own = new Board(module), fault = own.load(encode(source), encode(inputs), pages);
        if (fault) return { fault };
        let { next } = own.command(encode(`s ${steps}`));
        while (next === RUNNING) {
            await breathe();
            ({ next } = own.goOn());
        }
        return { answers: own.look(lines), console: decode(own.console()), steps: own.steps() };
    },

    /**
     * Where a register last changed in the run of a program, up to a step.
     * @param {string} source
     * @param {string} inputs
     * @param {number} pages
     * @param {number} steps
     * @param {string} register
     */
    changed: (source, inputs, pages, steps, register) => {
        const open = () => {
            const own = new Board(module);
            own.load(encode(source), encode(inputs), pages);
            return own;
        };
        return lastChange(open, steps, register, breathe);
    },

    // The steps, what was sent and is saved so far, and what commands that only look answer, as values.
    look(/** @type {string[]} */ lines) {
        const bytes = lab.console(), { answer } = lab.command(encode("save"));
        told = bytes.length;
        return { steps: lab.steps(), console: decode(bytes), saved: answer, answers: lab.look(lines) };
    },

    // The answers of commands that take no step, as text for people.
    ask: (/** @type {string[]} */ lines) => lines.map((line) => lab.ask(line)),

    steps: () => lab.steps(),
};

/** @param {{ id: number, act: string, words: unknown[] }} call */
async function answer({ id, act, words }) {
    try {
        postMessage({ id, result: await acts[act](...words) });
    } catch (error) {
        // What the instance holds after an exception can't be relied on.
        const lost = error instanceof WebAssembly.RuntimeError;
        if (lost) renew();
        postMessage({ id, failed: error instanceof Error ? error.message : String(error), lost });
    }
}

/**
 * Answers a call of the queue.
 * @param {{ id: number, act: string, words: unknown[] }} data
 */
function answerNext(data) {
    asked = data.id;
    return answer(data);
}

let last = Promise.resolve(), started = last;

onmessage = ({ data }) => {
    if (data.act === "pause") paused = true;
    else if (ASIDE.includes(data.act)) started.then(() => answer(data));
    else last = last.then(() => answerNext(data));
    if (data.act === "start") started = last;
};
