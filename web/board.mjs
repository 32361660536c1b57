// A lab in an instance of board.wasm: the calls of rv_page. Texts go in and out as bytes. The page's worker
// and the tests in Node use it.
import { encode, joinBytes } from "./lines.mjs";

export const MORE = 0, RUNNING = 1, SAVE = 2, QUIT = 3;
const REFUSED = 1, NO_MEMORY = 4, NO_LAB = 5;
const ROOM = 1 << 16;
const PIECE = 100000; // the most steps of the first call

export const decode = (/** @type {Uint8Array} */ bytes) => new TextDecoder().decode(bytes);

/**
 * The bytes of a string that has a character for each.
 * @param {string} text
 */
const asBytes = (text) => Uint8Array.from(text, (it) => it.charCodeAt(0));

/** @typedef {(handle: bigint, from: bigint, room: bigint, count: bigint) => bigint} Reader */

export class Board {
    /** @param {WebAssembly.Module} module */
    constructor(module) {
        this.exports = /** @type {Record<string, any>} */ (new WebAssembly.Instance(module).exports);
        this.piece = PIECE; // the most steps of a call of a command
        this.handle = this.exports.page_room(16n);
        this.room = this.exports.page_room(BigInt(ROOM));
        this.bytes(this.handle, 16).fill(0);
        if (!this.exports.page_new(this.handle)) throw new Error("out of memory");
    }

    /**
     * The memory of the instance, which moves when it grows.
     * @param {bigint} place
     * @param {number} count
     */
    bytes(place, count) {
        return new Uint8Array(this.exports.memory.buffer, Number(place), count);
    }

    /**
     * Calls with the place and the length of each text, which lies in the memory meanwhile.
     * @param {Uint8Array[]} texts
     * @param {(...words: bigint[]) => number} call
     */
    withTexts(texts, call) {
        const places = texts.map((text) => {
            const place = this.exports.page_room(BigInt(text.length));
            this.bytes(place, text.length).set(text);
            return place;
        });
        const code = call(...texts.flatMap((text, i) => [places[i], BigInt(text.length)]));
        for (const place of places) this.exports.page_done(place);
        return code;
    }

    /**
     * All that a reader has from a place on.
     * @param {Reader} reader
     */
    read(reader, from = 0) {
        const pieces = [];
        let count;
        do {
            count = Number(reader(this.handle, BigInt(from), this.room, BigInt(ROOM)));
            pieces.push(this.bytes(this.room, count).slice());
            from += count;
        } while (count === ROOM);
        return joinBytes(pieces);
    }

    /** The text of the last answer, for people. */
    text() {
        return this.read(this.exports.page_text);
    }

    /**
     * The last answer as a value, if it has one.
     * @returns {any}
     */
    value() {
        return JSON.parse(decode(this.read(this.exports.page_json)) || "null");
    }

    /** What the console got from a place on. */
    console(from = 0) {
        return this.read(this.exports.page_console, from);
    }

    steps() {
        return Number(this.exports.page_steps(this.handle));
    }

    /**
     * Opens a lab; returns why there is none, as a text and where the source is refused as a value, or nothing.
     * @param {Uint8Array} source
     * @param {Uint8Array} inputs
     */
    load(source, inputs, pages = 256, slots = 1024) {
        const load = (/** @type {bigint[]} */ ...texts) => this.exports.page_load(this.handle, ...texts, pages, slots);
        const code = this.withTexts([source, inputs], load);
        if (code === NO_MEMORY) throw new Error("out of memory");
        return code === REFUSED ? { text: decode(this.text()), value: this.value() } : null;
    }

    /**
     * The code of a call, which has an answer.
     * @param {number} code
     */
    answered(code) {
        if (code === NO_MEMORY) throw new Error("out of memory");
        if (code === NO_LAB) throw new Error("no program is assembled");
        return code;
    }

    /**
     * What follows a command, its answer as text for people and as a value, and the bytes that the program has sent.
     * @param {number} code
     */
    reply(code) {
        const next = this.answered(code), { answer, console } = this.value();
        return { next, answer, sent: asBytes(console), text: decode(this.text()) };
    }

    /**
     * Executes a command line: its answer, and what follows it.
     * @param {Uint8Array} line
     */
    command(line) {
        const { page_command } = this.exports, piece = BigInt(this.piece);
        const execute = (/** @type {bigint[]} */ ...text) => page_command(this.handle, ...text, piece);
        return this.reply(this.withTexts([line], execute));
    }

    /**
     * What command lines that only look answer, as values. The board stays as it is.
     * @param {string[]} lines
     * @returns {any[]}
     */
    look(lines) {
        const { page_look } = this.exports;
        const look = (/** @type {bigint[]} */ ...text) => page_look(this.handle, ...text);
        this.answered(this.withTexts([encode(lines.map((line) => `${line}\n`).join(""))], look));
        return decode(this.text()).split("\n").slice(0, lines.length).map((line) => JSON.parse(line));
    }

    /** Goes on with a run whose answer said RUNNING. */
    goOn() {
        return this.reply(this.exports.page_go_on(this.handle, BigInt(this.piece)));
    }

    /**
     * The answer of a command line that begins no run, as text.
     * @param {string} line
     */
    ask(line) {
        return this.command(encode(line)).text;
    }
}
