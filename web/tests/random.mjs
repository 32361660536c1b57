// node web/tests/random.mjs PROGRAM: 500 random programs with random commands print in Node, by out/web/board.wasm, what the
// built program prints, byte for byte.
import { spawnSync } from "node:child_process";
import fs from "node:fs";
import os from "node:os";
import path from "node:path";
import { monitor, open, status } from "../run.mjs";
import { check, finish, same } from "./checks.mjs";

const PROGRAMS = 500;
const program = path.resolve(process.argv[2]);
const room = fs.mkdtempSync(path.join(os.tmpdir(), "rv-random-"));
let random = 68;

function below(most) {
    random = (random * 48271) % 2147483647;
    return Math.floor(random / 8) % most;
}

const some = (all) => all[below(all.length)];
const REGISTERS = ["zero", "ra", "sp", "t0", "t1", "t2", "a0", "a1", "s0", "s1"];
const CSRS = ["mstatus", "mie", "mip", "mtvec", "mscratch", "mepc", "mcause", "mtval", "pmpcfg0", "pmpaddr0", "mcycle", "0x123"];
const r = () => some(REGISTERS), number = () => some([0, 1, -1, 4, 7, 100, -2048, 2047]);
const word = () => below(2 ** 16) * 65536 + below(65536);
// The lines of programs: any of these in any order, so many of them trap, and some write over the program.
const LINES = [
    () => `${some(["add", "sub", "xor", "and", "or", "sll", "srl", "sra", "slt", "sltu", "mul", "mulh", "div", "divu", "rem", "remu"])} ${r()},${r()},${r()}`,
    () => `${some(["addi", "xori", "andi", "ori", "slti", "sltiu"])} ${r()},${r()},${number()}`,
    () => `${some(["slli", "srli", "srai"])} ${r()},${r()},${below(32)}`,
    () => `li ${r()},${word() | 0}`,
    () => `la ${r()},${some(["data", "data+4", "data+1", "l3"])}`,
    () => `li t2,${some(["0x10000000", "0x0200bff8", "0x0c000004", "0x1000", "0x80fffffc"])}`,
    () => `${some(["lw", "lh", "lhu", "lb", "lbu", "sw", "sh", "sb"])} ${r()},${some([0, 1, 2, 4, 8])}(${some(["t2", "s0", "a0", "sp"])})`,
    () => `${some(["beq", "bne", "blt", "bge", "bltu", "bgeu"])} ${r()},${r()},l${below(30)}`,
    () => `${some(["j", "call", "jal"])} l${below(30)}`,
    () => `${some(["csrrw", "csrrs", "csrrc"])} ${r()},${some(CSRS)},${r()}`,
    () => `${some(["csrrwi", "csrrsi"])} ${r()},${some(CSRS)},${below(32)}`,
    () => some(["ecall", "ebreak", "mret", "wfi", "fence", "fence.i", "ret", "nop", "jr a0"]),
    () => `.word ${word()}`,
];
const COMMANDS = [
    () => `s ${below(60)}`, () => `c ${below(500)}`, () => "r", () => "t", () => `m data ${1 + below(64)}`, () => `i 0x${(0x80000000 + 4 * below(40)).toString(16)}`,
    () => `b l${below(30)}`, () => `d l${below(30)}`, () => `p ${some(CSRS)}`, () => `e ${20 + below(12)}`, () => some(["", "# x", "q x", "s -1", "m", "r r"]),
];
const INPUTS = [() => `rx ${below(256).toString(16).padStart(2, "0")}`, () => `line ${1 + below(31)} ${below(2)}`];
const list = (count, line) => Array.from({ length: count }, (_, i) => `${line(i)}\n`).join("");

function randomProgram() {
    const begin = "        la s0,data\n        la a0,l3\n        la t2,l5\n        csrw mtvec,t2\n        la t2,data\n";
    const source = `${begin}${list(30, (i) => `l${i}:     ${some(LINES)()}`)}data:   .word 1, 2, 3, 4\n        .space 64\n`;
    let step = 0;
    const inputs = list(below(6), () => `${(step += below(40))} ${some(INPUTS)()}`);
    return { source, inputs, commands: list(3 + below(12), () => some(COMMANDS)()) };
}

// What the built program prints.
function native(texts) {
    const words = Object.entries(texts).flatMap(([name, text]) => {
        fs.writeFileSync(`${room}/${name}`, text);
        return name === "source" ? [`${room}/source`] : [`--${{ inputs: "input", commands: "commands" }[name]}`, `${room}/${name}`];
    });
    const { stdout, stderr } = spawnSync(program, words);
    return `${stdout.toString("latin1")}${stderr.toString("latin1")}`;
}

// What the lab in Node prints, with calls of some steps each.
function inNode({ source, inputs, commands }) {
    const { board, fault } = open(Buffer.from(source), Buffer.from(inputs), 256, 1 + below(2000));
    if (fault) return fault.text;
    const out = commands.split("\n").slice(0, -1).map((line) => monitor(board, Buffer.from(line)).text.toString("latin1"));
    const sent = Buffer.from(board.console()).toString("latin1");
    return `${out.join("")}${sent}${sent && !sent.endsWith("\n") ? "\n" : ""}${status(board)}`;
}

const counts = { traps: 0, refused: 0 }, wrong = [];
for (let i = 0; i < PROGRAMS; i++) {
    const texts = randomProgram(), want = native(texts), got = inNode(texts);
    if (/^trap /m.test(want)) counts.traps++;
    if (want.startsWith("source line")) counts.refused++;
    // The words of a refusal are the lab's own.
    if (want !== got && !want.startsWith("source line")) wrong.push(`program ${i}\n${texts.source}${texts.commands}\nwant ${want}\ngot ${got}`);
}
same(`${PROGRAMS} random programs print what they print natively`, wrong.length ? wrong[0] : "", "");
check(`${counts.traps} of them tell traps, ${counts.refused} are refused`, counts.traps > 50 && counts.refused < 40);
fs.rmSync(room, { recursive: true });
finish();
