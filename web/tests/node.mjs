// node web/tests/node.mjs PROGRAM: each example, two programs of others and a long run print in Node, by
// out/web/board.wasm, what the built program prints.
import { spawnSync } from "node:child_process";
import fs from "node:fs";
import path from "node:path";
import { fileURLToPath } from "node:url";
import { check, finish } from "./checks.mjs";

const program = path.resolve(process.argv[2]);
const top = fileURLToPath(new URL("../..", import.meta.url));

// What a command prints, and its user time in seconds.
function run(...words) {
    const all = ["-c", 'TIMEFORMAT=%U; time "$@"', "run", ...words];
    const { stdout, stderr } = spawnSync("bash", all, { cwd: top, maxBuffer: 1 << 28 });
    return { stdout, stderr, seconds: Number(stderr.toString().trim().split("\n").at(-1)) };
}

// Compares a run of the program with that in Node, which may have more words, byte for byte.
function compare(name, words, more = []) {
    const native = run(program, ...words), node = run("node", "web/run.mjs", ...words, ...more);
    const both = `\n  native ${native.stdout}${native.stderr}\n  node   ${node.stdout}${node.stderr}`;
    check(name, native.stdout.length > 0 && native.stdout.equals(node.stdout), both);
    return `${name}: ${node.seconds} s in Node, ${native.seconds} s natively`;
}

// The words of an example: itself, and its timed list and its commands where it has some.
function wordsOf(file) {
    const options = ["input", "commands"].filter((it) => fs.existsSync(`${top}/examples/${file}.${it}`));
    return [`examples/${file}`, ...options.flatMap((it) => [`--${it}`, `examples/${file}.${it}`])];
}

const examples = fs.readdirSync(`${top}/examples`).filter((it) => it.endsWith(".s"));
for (const file of examples) compare(file, wordsOf(file));
for (const file of examples) compare(`${file}, 7 steps a call`, wordsOf(file), ["--piece", "7"]);
const long = ["--steps", "1000000000", "--pages", "1024"];
const programs = ["bench/solver.s", "bench/lisp.s", "bench/loop.s"];
const times = programs.map((file) => compare(file, [file, ...long]));
console.log(times.join("\n"));
finish();
