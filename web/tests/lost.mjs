// node web/tests/lost.mjs PROGRAM: whatever is under way, Pause and Assemble work, and a worker that is lost is replaced.
import fs from "node:fs";
import { check, contains, same } from "./checks.mjs";
import { answer, answers, choose, clickLine, idle, lab, learn, mark, native, open, page, press, printed } from "./user.mjs";
import { sourceOf, text, top } from "./user.mjs";

// Gives a command of the lab that goes on for long, and pauses it.
async function paused(line) {
    await page.click("#ask-line");
    await page.type(line);
    await page.press("Enter");
    await page.until(`!document.getElementById("progress").hidden`);
    await page.alt("P");
    await answers("paused");
    await idle();
    contains(`${line} can be paused`, await answer(), /^paused$/m);
    await press("A", "Assembled");
}

// What the monitor runs goes in pieces, as other runs do.
async function monitorRuns() {
    await open("again:  j again\n");
    await paused("c 1000000000");
    await paused("monitor c");
    await paused("monitor s 1000000000");
    const source = fs.readFileSync(`${top}/bench/loop.s`, "utf8");
    await open(source);
    await lab("monitor c", "stop halted");
    const words = ["--steps", "1000000000"], steps = native(source, { words }).match(/after (\d+) steps/)[1];
    contains("monitor c ends as natively", await answer(), new RegExp(`^stop halted pc=\\w+ mode=M steps=${steps}$`, "m"));
}

// The instance never ends a call.
async function hung() {
    await choose("hello");
    await clickLine(4);
    await answers("breakpoint at line");
    await idle();
    await page.runInWorker("lab.command = () => { for (;;); }");
    await page.alt("S");
    await page.alt("P");
    await page.until(`document.getElementById("answer").textContent.includes("made anew: assemble again")`, 3);
    await idle();
    await works("after a call that doesn't end");
}

// Checks that the text and the breakpoint are still there, and that the board runs again.
async function works(when) {
    same(`${when} the text is still there`, await text(), sourceOf("hello"));
    await press("A", "Assembled");
    same(`${when} the breakpoint is still there`, await mark(4), "●");
    await press("R", "breakpoint after");
    await press("R", "halted with code 0");
    check(`${when} the board runs again`, (await printed()).startsWith("H\n"));
}

async function ended() {
    await page.runInWorker(`setTimeout(() => { throw new Error("worn out"); })`);
    await answers("worn out");
    contains("a worker that fails is told", await answer(), /^The board was lost .*worn out.* made anew: assemble again/);
    await works("after a worker that failed");
}

await learn(hung, ended, monitorRuns);
