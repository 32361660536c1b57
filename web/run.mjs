// node web/run.mjs SOURCE [--input F] [--commands F] [--steps N] [--pages P] [--piece N]: prints what rvboard prints for
// these words, by the lab in out/web/board.wasm, in calls of at most as many steps as a piece has. For comparisons.
import fs from "node:fs";
import { Board, RUNNING } from "./board.mjs";
import { encode } from "./lines.mjs";

// The lines of a text, as the program cuts them.
export function cutLines(bytes) {
    const lines = [];
    for (let from = 0; from < bytes.length; ) {
        const at = bytes.indexOf(10, from), end = at < 0 ? bytes.length : at;
        lines.push(bytes.subarray(from, end > from && bytes[end - 1] === 13 ? end - 1 : end));
        from = end + 1;
    }
    return lines;
}

// The monitor's answer to a line, in as many pieces as it takes.
export function monitor(board, line) {
    let { answer, next } = board.command(Buffer.concat([encode("monitor "), line]));
    while (next === RUNNING) ({ answer, next } = board.goOn());
    return { text: Buffer.from(answer.text, "latin1"), next };
}

// How the board stands, as rvboard's last line says it.
export function status(board) {
    const [{ steps, halted, here }] = board.look(["w"]);
    const end = halted === null ? `running at ${here.address.toString(16).padStart(8, "0")}` : `halted ${halted}`;
    return `${end} after ${steps} steps\n`;
}

// Takes steps until the board halts, and no more than `steps`.
export function runAll(board, steps) {
    for (let answer = board.command(encode(`s ${steps}`)); answer.next === RUNNING; ) answer = board.goOn();
}

export function open(source, inputs, pages, piece) {
    const file = new URL("../out/web/board.wasm", import.meta.url);
    const board = new Board(new WebAssembly.Module(fs.readFileSync(file)));
    board.piece = piece;
    return { board, fault: board.load(source, inputs, pages) };
}

function main(words) {
    const options = {};
    while (words.length > 1) {
        const at = words.findIndex((word) => word.startsWith("--"));
        const [name, value] = words.splice(at, 2);
        options[name.slice(2)] = value;
    }
    const input = options.input ? fs.readFileSync(options.input) : new Uint8Array();
    const { pages = 256, piece = 1000000 } = options;
    const { board, fault } = open(fs.readFileSync(words[0]), input, Number(pages), Number(piece));
    if (fault) {
        process.stderr.write(fault.text);
        process.exitCode = 3;
        return;
    }
    const out = [];
    if (options.commands) {
        for (const line of cutLines(fs.readFileSync(options.commands))) {
            const { text, next } = monitor(board, line);
            out.push(text);
            if (next > RUNNING) break;
        }
    } else runAll(board, options.steps ?? 1000000);
    const console_ = board.console();
    out.push(console_);
    if (console_.length && console_.at(-1) !== 10) out.push(encode("\n"));
    out.push(encode(status(board)));
    process.stdout.write(Buffer.concat(out));
}

if (process.argv[1] === new URL(import.meta.url).pathname) main(process.argv.slice(2));
