// node web/tests/controls.mjs PROGRAM: each control of the page does what it says, also while the board runs.
import fs from "node:fs";
import path from "node:path";
import { check, contains, same } from "./checks.mjs";
import * as source from "./source.mjs";
import { answer, answers, choose, clickLine, idle, lab, learn, mark, native, open, page, text } from "./user.mjs";
import { pauseWhenRunning, press, printed, quoted, room, sourceOf, top, typeOver, where } from "./user.mjs";

const lineOf = (name, text) => sourceOf(name).split("\n").findIndex((it) => it.includes(text)) + 1;
const isRunning = () => page.until(`!document.getElementById("progress").hidden`);

async function overAndOut() {
    await choose("recursion");
    await lab("until print", "stopped after");
    const before = await where();
    await press("U", "stopped after");
    contains("Out goes on to the return of the call", await answer(), /13: +li +a0,'\\n'/);
    await press("Z", "back at step");
    same("Undo takes Out back", await where(), before);
}

async function files() {
    await choose("hello");
    const file = path.join(room, "mine.s"), source = "# mine\n        nop\n        ebreak\n";
    fs.writeFileSync(file, source);
    await page.choose(file, () => page.click("#open"));
    await answers("Assembled: 3 lines");
    await idle();
    same("a file is opened", await text(), source);
    await typeOver("nop", "wfi");
    await page.click("#save");
    same("it is saved under its name, as it is now", await page.saved("mine.s"), source.replace("nop", "wfi"));
    await typeOver("wfi", "ecall");
    await page.click("#load");
    await page.press("Escape");
    await idle();
    same("a source that isn't saved is kept after Escape", await text(), source.replace("nop", "ecall"));
    const asked = page.asked.length;
    await choose("hello");
    contains("a source that isn't saved is replaced after a question", page.asked.slice(asked).join(), /aren't saved/);
    await choose("timer");
    same("a source that is saved is replaced at once", page.asked.length, asked + 1);
}

// A program that waits for input is sent some while it runs.
async function inputWhileRunning() {
    await choose("echo");
    await page.run(`document.getElementById("inputs").value = ""`);
    await press("A", "Assembled");
    await page.alt("R");
    await isRunning();
    await page.click("#send-text");
    await page.type("Hello");
    await page.press("Enter");
    await answers("halted with code 0");
    await idle();
    const end = await printed();
    contains("a text that is sent while the board runs is received", end, /^Hello\n/);
    await page.click("#tab-repeat");
    await page.until(`document.querySelector("#panel-repeat .shown").textContent.includes("rx")`);
    await page.click("#save-input");
    const inputs = await page.saved("lab.input");
    await page.click("#save-commands");
    const commands = await page.saved("lab.commands");
    const words = (await page.text("#panel-repeat .options")).match(/--steps.*/)[0].split(" ");
    const last = (all) => all.split("\n").slice(-3).join("\n");
    same("the saved files repeat it natively", last(native(sourceOf("echo"), { inputs, commands, words })), end);
    await page.click("#link");
    await page.until(`location.hash.length > 10`);
    const address = await page.run("location.href");
    await choose("hello");
    await page.run(`document.getElementById("answer").textContent = ""`);
    await page.run(`location.href = ${quoted(address)}`);
    await answers("Assembled");
    await idle();
    same("a link that is opened in the page holds the source", await text(), sourceOf("echo"));
    same("and what was sent", await page.run(`document.getElementById("inputs").value`), inputs);
}

// The program runs for 160 million steps, so that a run to its middle shows its progress on a fast machine too.
async function backFromFar() {
    await open(fs.readFileSync(`${top}/bench/loop.s`, "utf8").replace("TURNS,4000000", "TURNS,20000000"));
    await press("R", "halted with code");
    const end = await where();
    await press("B", "back at step");
    const [before, now] = [end, await where()].map((it) => Number(it.match(/step (.*)$/)[1].replaceAll(",", "")));
    same("a step back from a long run is one step", now, before - 1);
    await press("0", "back at step 0");
    await lab("c 80000000", "still running");
    await press("R", "halted with code");
    await pauseWhenRunning();
    await press("Z", "paused");
    check("a long way back can be paused", true);
    await press("0", "back at step 0");
    contains("reset is step 0", await where(), /step 0$/);
}

async function speeds() {
    await choose("timer");
    await page.run(`(() => {
        const speed = document.getElementById("speed");
        speed.value = "10";
    })()`);
    await page.alt("R");
    await page.until(`/step [2-9]$/.test(document.getElementById("where").textContent)`);
    await page.run(`(() => {
        const speed = document.getElementById("speed");
        speed.value = "0";
        speed.dispatchEvent(new Event("change"));
    })()`);
    await answers("halted with code");
    await idle();
    check("the speed can be changed while the board runs", true);
}

async function breakpointsStay() {
    await choose("session");
    const line = lineOf("session", "add:");
    await clickLine(line);
    await answers(`breakpoint at line ${line}`);
    await typeOver("# ", "# one line more\n# ");
    await page.until(`${source.mark(line + 1)} === "●"`);
    check("a breakpoint stays at its line as lines come above it", true);
    await press("A", "Assembled");
    await press("R", "breakpoint after 4 steps");
}

// A source of more lines than the lab lists at once, with bytes at odd addresses, too.
async function longSource() {
    const lines = Array.from({ length: 2990 }, (_, i) => `        addi t0,t0,${i % 100}`);
    await open([...lines, "1:      j 1b", "        .byte 1", "        .byte 2"].join("\n"));
    await idle();
    for (const line of [1400, 2993]) {
        await mark(line);
        await clickLine(line);
        await answers(`breakpoint at line ${line}`);
        await idle();
        same(`line ${line} of a long source has its mark`, await mark(line), "●");
    }
    await lab("b 2600", "breakpoint at line 2600");
    same("also by a command", await mark(2600), "●");
    await press("A", "Assembled");
    same("Assemble keeps it", [await mark(1400), await mark(2600), await mark(2993)].join(""), "●●●");
    await press("R", "breakpoint after 1399 steps");
    same("a run stops there", await mark(1400), "◉");
    await clickLine(1400);
    await answers("no more breakpoint");
    await idle();
    same("a click clears it", await mark(1400), "➤");
    await lab("d 2993", "no more breakpoint");
    same("and so does a command", [await mark(2600), await mark(2993)].join(""), "●");
}

const inPanel = (name, part) => `document.getElementById("panel-${name}").querySelector(${quoted(part)})`;
const panelHas = (name, text) => page.until(`${inPanel(name, "*")}.parentElement.textContent.includes(${quoted(text)})`);

// Opens the tab of the memory at an address.
async function showMemory(where) {
    await page.click("#tab-memory");
    await page.run(`(() => {
        const input = document.getElementById("memory-where");
        input.value = ${quoted(where)};
        input.dispatchEvent(new Event("change"));
    })()`);
}

async function views() {
    const line = lineOf("session", "add:");
    await choose("session");
    await lab("c 100", "still running");
    await page.click("#tab-traps");
    await panelHas("traps", "step 10: trap 4, load address misaligned");
    contains("the first trap without a handler is shown with its line", await page.text("#panel-traps .why"), /9: +add:/);
    await press("0", "back at step 0");
    await page.click("#tab-listing");
    await page.until(`${inPanel("listing", "[aria-current]")}.dataset.line === "6"`);
    await page.click(`#panel-listing tr[data-line="${line}"]`);
    await answers(`breakpoint at line ${line}`);
    await idle();
    same("a click in the listing sets a breakpoint", await mark(line), "●");
    await showMemory("table +12");
    await page.until(`${inPanel("memory", "tbody td")}.textContent === "80000048"`);
    check("a place with blanks in it is behind its name", true);
    await showMemory("table 12 12");
    await panelHas("memory", "help m");
    check("and what is no place is told", true);
    await showMemory("table");
    await panelHas("memory", "8000003c");
    const row = () => page.run(`${inPanel("memory", "tbody tr")}.innerText`);
    contains("memory is shown as bytes, with labels", await row(), /^8000003c\s+01 00 00 00 02 00 .*table/);
    await page.click("#memory-words");
    await panelHas("memory", "00000001 00000002");
    contains("and as words", await row(), /^8000003c\s+00000001 00000002 .*table/);
    const addresses = `[...document.querySelectorAll("#panel-memory tbody tr")].map((it) => parseInt(it.innerText, 16))`;
    const last = await page.run(`${addresses}.at(-1)`);
    await page.click("#memory-later");
    await page.until(`${addresses}[0] === ${last + 16}`);
    check("and what follows", true);
    await page.click("#memory-earlier");
    await page.until(`${addresses}[0] === 0x8000003c`);
    check("and what precedes", true);
    await page.click("#memory-words");
    await page.click("#tab-control");
    await panelHas("control", "mstatus");
    contains("control registers are shown by field", await page.text("#panel-control"), /MIE 0/);
}

async function stack() {
    await choose("recursion");
    await lab("until print", "stopped after");
    await lab("s 2", "stopped after");
    await showMemory("sp");
    await panelHas("memory", "◀ sp");
    check("the stack is marked in memory", true);
}

// A control that can do nothing says why.
async function refused() {
    await page.alt("P");
    await answers("Nothing runs");
    await open("        nop\n");
    await page.run(source.put("li t0"));
    await page.alt("A");
    await answers("E");
    await page.alt("S");
    await answers("No program is on the board");
    await choose("echo");
    await page.run(`document.getElementById("pages").value = 5000`);
    await press("A", "bad pages: 1 to 4096 are wanted");
    await page.run(`document.getElementById("pages").value = 256`);
    await page.run(`document.getElementById("inputs").value = ""`);
    await press("A", "Assembled");
    await page.alt("R");
    await isRunning();
    await page.alt("S");
    await answers("The board runs: pause it first");
    await press("P", "paused");
    check("a control that can do nothing says why", true);
}

await learn(overAndOut, files, inputWhileRunning, backFromFar, speeds, breakpointsStay, longSource, views, stack, refused);
