// node web/tests/opened.mjs PROGRAM: a file that is opened runs in the page as it does on the built program, whatever
// its bytes are, and is saved with the same bytes.
import fs from "node:fs";
import path from "node:path";
import { check, contains, same } from "./checks.mjs";
import { answer, answers, idle, learn, native, page, press, printed, room, typeOver } from "./user.mjs";

const HALT = "        li t0,0x100000\n        li t1,0x5555\n        sw t1,(t0)\n";
const SEND = "        li t0,0x10000000\n        la a0,text\n1:      lbu t1,(a0)\n        beqz t1,2f\n"
    + "        sw t1,(t0)\n        addi a0,a0,1\n        j 1b\n2:\n";
const bytes = (...parts) => Buffer.concat(parts.map((it) => Buffer.from(it)));

// Opens a file of these bytes, and waits for what is said.
async function openBytes(all, expected) {
    const file = path.join(room, "bytes.s");
    fs.writeFileSync(file, all);
    await idle();
    await page.run(`document.getElementById("answer").textContent = ""`);
    await page.choose(file, () => page.click("#open"));
    await answers(expected);
    await idle();
}

async function saves(name, all) {
    await page.click("#save");
    same(name, (await page.savedBytes("bytes.s")).toString("hex"), all.toString("hex"));
}

async function latin1() {
    const all = bytes(SEND, HALT, 'text:   .asciz "d', [0xe9], 'j', [0xe0], '"   # ', [0xfc], "\n");
    await openBytes(all, "Bytes that are no text");
    contains("bytes that are no UTF-8 are told, with their place", await answer(), /line 12, column 18: 3\./);
    const shown = await page.run(`[...document.querySelectorAll(".cm-odd")].map((it) => it.textContent).join()`);
    same("they are shown as what they are", shown, "\\xe9,\\xe0,\\xfc");
    await press("R", "halted with code");
    same("they are sent as they are", await printed(), native(all));
    await saves("and saved", all);
    await typeOver("# ", "# more ");
    await saves("also with a change", bytes(SEND, HALT, 'text:   .asciz "d', [0xe9], 'j', [0xe0], '"   # more ', [0xfc], "\n"));
}

async function mark() {
    const all = bytes([0xef, 0xbb, 0xbf], HALT);
    await openBytes(all, "E1 BadByte");
    contains("a byte order mark is the fault that it is", await answer(), /^source:1:1: E1 BadByte/);
    contains("as natively", native(all), /^source line 1: E1 BadByte/);
    await saves("and is saved", all);
}

async function returns() {
    const all = bytes(HALT.replace("0x5555\n", "0x5555 # halt\rli t1,0x73333\n"));
    await openBytes(all, "Assembled");
    await press("R", "halted with code");
    same("a lone return in a comment ends no line", await printed(), native(all));
    await saves("and is saved", all);
    const code = bytes(HALT.replace("\n", "\rnop\n"));
    await openBytes(code, "E1 BadByte");
    contains("and in code it is a fault", native(code), /^source line 1: E1 BadByte/);
}

async function lineEnds() {
    const all = bytes("# a\r\n", HALT.replaceAll("\n", "\r\n"), "# z\n#\r");
    await openBytes(all, "Assembled");
    await press("R", "halted with code");
    same("lines that end with a return run as they do natively", await printed(), native(all));
    await saves("and keep their ends", all);
    await typeOver("# a", "# b");
    await saves("also where another line is changed", bytes("# b\r\n", all.subarray(5, -1), "\r\n"));
}

// All bytes in comments, of which only the line feed ends a line.
async function allBytes() {
    const some = Array.from({ length: 256 }, (_, i) => i).filter((it) => it !== 10);
    const all = bytes("# ", some, "\n", HALT, "# ", some.reverse(), "\n");
    await openBytes(all, "Assembled");
    await press("R", "halted with code");
    same("each byte may stand in a comment", await printed(), native(all));
    await saves("and is saved", all);
}

// A link holds all of it, too.
async function linked() {
    const all = bytes(SEND, HALT, 'text:   .asciz "', [0xff], '"\n');
    await openBytes(all, "Assembled");
    await page.click("#link");
    await page.until(`location.hash.length > 10`);
    const address = await page.run("location.href");
    await page.visit(address);
    await press("R", "halted with code");
    same("a link holds bytes that are no UTF-8", await printed(), native(all));
}

async function tooLarge() {
    await openBytes(Buffer.alloc(16777217, "#"), "rvboard reads at most 16777216");
    check("a file that rvboard doesn't read is refused, with its size", true);
}

await learn(latin1, mark, returns, lineEnds, allBytes, linked, tooLarge);
