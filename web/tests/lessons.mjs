// node web/tests/lessons.mjs PROGRAM: lessons by clicks and keys, beside what the built program prints.
import fs from "node:fs";
import { check, contains, same } from "./checks.mjs";
import { editor, mark } from "./source.mjs";
import { answer, answers, choose, clickLine, idle, lab, learn, marks, native, open, page, printed, text } from "./user.mjs";
import { sourceOf, top, typeOver } from "./user.mjs";

async function allExamples() {
    const files = fs.readdirSync(`${top}/examples`);
    for (const file of files.filter((it) => it.endsWith(".s") && !files.includes(`${it}.commands`))) {
        await choose(file.slice(0, -2));
        await page.alt("R");
        await answers("halted with code");
        await idle();
        same(`example ${file}`, await printed(), fs.readFileSync(`${top}/examples/${file}.stdout`, "utf8"));
    }
}

// Examples with commands of the monitor: the lab executes each as `monitor` and the command.
async function commandExamples() {
    const files = fs.readdirSync(`${top}/examples`);
    for (const file of files.filter((it) => it.endsWith(".s") && files.includes(`${it}.commands`))) {
        await choose(file.slice(0, -2));
        const lines = fs.readFileSync(`${top}/examples/${file}.commands`, "utf8").split("\n");
        let all = "";
        for (const line of lines.filter((it) => it && !it.startsWith("#"))) {
            await lab(`monitor ${line}`, "");
            await page.until(`document.getElementById("answer").textContent !== ""`);
            await idle();
            all += `${(await answer()).split("\nno memory is at pc")[0]}\n`;
        }
        const expected = fs.readFileSync(`${top}/examples/${file}.stdout`, "utf8");
        same(`commands of ${file}`, all, expected.replace(/^running at .*\n/m, ""));
    }
}

// Programs of others, which want 4 MB of memory.
async function programsOfOthers() {
    for (const name of ["solver", "lisp"]) {
        const source = fs.readFileSync(`${top}/bench/${name}.s`, "utf8");
        await open(source, "", 1024);
        await page.alt("R");
        await page.until(`/halted with code/.test(document.getElementById("answer").textContent)`, 4);
        await idle();
        const words = ["--steps", "1000000000", "--pages", "1024"];
        same(`${name} of others`, await printed(), native(source, { words }));
    }
}

async function fault() {
    await choose("hello");
    const source = sourceOf("hello");
    await typeOver("li", "LI");
    await page.until(`document.querySelectorAll("#faults li").length > 0`);
    const line = source.split("\n").findIndex((it) => /\bli /.test(it)) + 1;
    same("a fault is marked at its line as one types", await marks(), `✗${line}`);
    same("the word that is meant is underlined", await page.text(".cm-fault"), "LI");
    contains("its sentence and advice stand below", await page.text("#faults"), /`LI` is neither .* write `li`/);
    await page.run(`document.querySelector("#faults button").click()`);
    const selected = await page.run(`${editor}.getSelection()`);
    same("its button selects that word", selected, "LI");
    await typeOver("LI", "li");
    await page.until(`document.querySelectorAll("#faults li").length === 0`);
    check("mended, no line is marked", !(await marks()).includes("✗"));
}

async function breakpoint() {
    await choose("session");
    const line = sourceOf("session").split("\n").findIndex((it) => /^add:/.test(it)) + 1;
    await clickLine(line);
    await answers(`breakpoint at line ${line}`);
    await page.alt("R");
    await answers("breakpoint after 4 steps");
    await idle();
    await page.until(`${mark(line)} === "◉"`);
    check("the run stops at the breakpoint's line", true);
    const here = (await page.text(".CodeMirror-code .here .CodeMirror-line")).replaceAll("\u00a0", " ");
    same("and has the colour of that", here, sourceOf("session").split("\n")[line - 1]);
    await page.alt("S");
    await answers("step 5");
    await page.until(`/step 5$/.test(document.getElementById("where").textContent)`);
    contains("a step shows the register that it changed", await page.text("#registers .changed"), /t2/);
    await page.alt("B");
    await answers("back at step 4");
    await page.until(`${mark(line)} === "◉"`);
    check("back is the line before", true);
    await clickLine(line);
    await answers("no more breakpoint");
    await page.alt("T");
    await answers("trap 4");
    await idle();
    await page.alt("Y");
    await page.until(`document.getElementById("answer").textContent.startsWith("step 10")`);
    contains("the first trap without a handler is explained", await answer(), /^step 10: trap 4/);
}

// Without a mouse: a breakpoint at the caret's line, and a run that takes some steps a second.
async function byKeys() {
    await choose("hello");
    await typeOver("sw ", "sw ");
    await page.alt("K");
    await answers("breakpoint at line 5");
    await page.run(`document.getElementById("speed").value = "50"`);
    await idle();
    await page.alt("R");
    await answers("breakpoint after 1 step");
    await idle();
    contains("a slow run stops at a breakpoint", await page.text("#where"), /80000008,.* step 2$/);
    await page.run(`document.getElementById("speed").value = "2"`);
    await page.alt("R");
    await answers("still running");
    await page.alt("P");
    await idle();
    contains("a pause ends a slow run", await page.text("#where"), /step 3$/);
    await page.run(`document.getElementById("speed").value = "0"`);
}

async function byHand() {
    await open(sourceOf("echo"));
    await lab("s 50", "stopped after 50 steps");
    await page.click("#send-text");
    await page.type("Hi!");
    await page.press("Enter");
    await answers("4 inputs before step 50");
    await page.alt("R");
    await answers("halted with code 0");
    await idle();
    const end = await printed();
    contains("bytes sent by hand come back", end, /^Hi!\n/);
    await page.click("#tab-repeat");
    await page.until(`document.querySelector("#panel-repeat .shown").textContent.includes("rx")`);
    const inputs = await page.text("#panel-repeat .shown");
    const commands = await page.text("#panel-repeat .commands");
    const words = (await page.text("#panel-repeat .options")).match(/--steps.*/)[0].split(" ");
    const last = (text) => text.split("\n").slice(-3).join("\n");
    same("what is saved repeats natively", last(native(sourceOf("echo"), { inputs, commands, words })), end);
}

async function interruptLine() {
    await open(sourceOf("interrupt"));
    await lab("s 30", "stopped after 30 steps");
    await page.click("#tab-devices");
    await page.until(`/mtime 30,/.test(document.querySelector("#panel-devices .shown").textContent)`);
    await page.click('#lines [value="5"]');
    await page.until(`document.querySelector('#lines [value="5"]').ariaChecked === "true"`);
    await idle();
    await page.alt("T");
    await answers("external interrupt");
    check("a line that is raised by hand is taken as an interrupt", true);
    await page.click("#tab-traps");
    await page.until(`document.querySelector("#panel-traps .shown").textContent.includes("external")`);
    check("the trap is among the last ones", true);
}

async function protection() {
    await choose("lab/task");
    await page.click("#tab-protection");
    await page.alt("T");
    await answers("trap 7");
    await page.until(`/store at 80001018/.test(document.getElementById("panel-protection").textContent)`);
    const rows = `[...document.querySelectorAll("#panel-protection tr")].map((it) => it.textContent)`;
    const row = (await page.run(rows)).find((it) => it.includes("80001018"));
    contains("the map shows where the task was stopped, and what it may do", row, /80001000 – 80001fff.*r-x/);
}

async function link() {
    await choose("lab/task");
    await clickLine(4);
    await answers("breakpoint at line");
    await page.run(`document.getElementById("pages").value = 512`);
    await page.click("#link");
    await page.until(`location.hash.length > 10`);
    const address = await page.run("location.href");
    await page.visit(address);
    same("a link holds the source", await text(), sourceOf("lab/task"));
    contains("and the breakpoint", await marks(), /◉/);
    same("and the size of memory", await page.run(`document.getElementById("pages").value`), "512");
}

async function longRun() {
    const source = fs.readFileSync(`${top}/bench/loop.s`, "utf8");
    await open(source);
    await page.alt("R");
    await answers("halted with code");
    await idle();
    const words = ["--steps", "1000000000"];
    same("32 million steps end as natively", await printed(), native(source, { words }));
}

async function endlessRun() {
    await open("again:  j again\n");
    await page.alt("R");
    await page.until(`!document.getElementById("progress").hidden`);
    const progress = await page.text("#progress");
    contains("a run counts its steps", progress, /^Running: step [\d,]+, [\d.]+ million steps a /);
    await page.alt("P");
    await answers("paused");
    await idle();
    check("a pause ends the run", true);
}

// The instance gets a handle that is none, so that its next call has an exception.
async function lost() {
    await choose("hello");
    await page.runInWorker("lab.handle = 0xfffffff0n");
    await page.alt("S");
    await answers("made anew: assemble again");
    await page.alt("A");
    await answers("Assembled");
    await page.alt("R");
    await answers("halted with code 0");
    await idle();
    check("after an exception the board is made anew, and a line says so", true);
}

await learn(allExamples, commandExamples, programsOfOthers, fault, breakpoint, byKeys, byHand, interruptLine, protection,
    link, longRun, endlessRun, lost);
