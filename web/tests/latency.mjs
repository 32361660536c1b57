// node web/tests/latency.mjs PROGRAM: how long one waits: for a key in a long source and in a long line, for a step in
// 3,000 lines, and for Pause in a run of 10^9 steps. A key and a step are compared with those in 30 lines on the same
// machine: on a slow one both take longer.
import { check, contains, same } from "./checks.mjs";
import { clickLine, editor, put } from "./source.mjs";
import { answer, answers, idle, learn, open, page, where } from "./user.mjs";

const STEP = 20, KEY = 50, LONG_LINE = 1000, PAUSE = 500; // milliseconds at most, on a machine that isn't slow
const LONGER = 2; // how much longer a key or a step in a long source may take than in a short one, on any machine
const wait = (milliseconds) => new Promise((done) => setTimeout(done, milliseconds));

// The time that a quarter of them stay below: what the page takes, and not what other programs on the machine take.
const quarter = (times) => times.sort((a, b) => a - b)[times.length >> 2];

// Checks a time in a long source: at most a limit, or not much longer than in a short one.
function within(what, time, limit, short) {
    check(`${what} takes ${Math.round(time)} ms, in 30 lines ${Math.round(short)}`, time < Math.max(limit, LONGER * short));
}

// The milliseconds from some keys to what is drawn after each.
async function keyTimes(count) {
    await page.run(`{
        window.times = [];
        window.onkeydown = ({ timeStamp }) => requestAnimationFrame(() => setTimeout(() => times.push(performance.now() - timeStamp)));
    }`);
    for (let i = 0; i < count; i++) {
        await page.call("Input.dispatchKeyEvent", { type: "keyDown", key: "a", text: "a", windowsVirtualKeyCode: 65 });
        await page.call("Input.dispatchKeyEvent", { type: "keyUp", key: "a", windowsVirtualKeyCode: 65 });
        await wait(150);
    }
    await page.run("window.onkeydown = null");
    return page.run("times");
}

// Puts a long text into the editor, the caret in its second line.
async function putLong(expression) {
    await page.run(put("").replace('""', expression));
    await page.run(`${editor}.focus()`);
    await page.run(`${editor}.setCursor(1, 4)`);
    await wait(3000);
}

async function keys() {
    const line = "        addi t0,t0,1            # a line as others are\n";
    await putLong(`${JSON.stringify(line)}.repeat(30)`);
    const short = quarter(await keyTimes(15));
    await putLong(`${JSON.stringify(line)}.repeat(100000)`);
    within("a key in 100,000 lines", quarter(await keyTimes(15)), KEY, short);
    await page.run(`${editor}.setCursor(60000, 4)`);
    within("a key in the midst of them", quarter(await keyTimes(15)), KEY, short);
    await putLong(`"nop\\n" + "x y ".repeat(250000) + "\\nnop\\n"`);
    const long = quarter(await keyTimes(7));
    check(`a key in a line of 1 MB takes ${Math.round(long)} ms`, long < LONG_LINE);
}

// The milliseconds from a press of Step to the page with its end, laid out.
const stepTime = `new Promise((done) => {
    const began = performance.now(), box = document.getElementById("where");
    const observer = new MutationObserver(() => {
        observer.disconnect();
        queueMicrotask(() => done(document.body.getBoundingClientRect() && performance.now() - began));
    });
    observer.observe(box, { childList: true });
    document.getElementById("step").click();
})`;

async function stepTimes(count) {
    const times = [];
    for (let i = 0; i < count; i++) {
        times.push(await page.run(stepTime));
        await idle();
    }
    return times;
}

// Opens a source of that many lines, and returns the time of a step with each tab beside.
async function stepsIn(count) {
    const lines = Array.from({ length: count }, (_, i) => `l${i}:     addi t0,t0,${i % 100}          # line ${i}`);
    await open(`${lines.join("\n")}\n        j l0\n`);
    await stepTimes(5);
    const times = {};
    for (const tab of ["control", "memory"]) {
        await page.run(`document.getElementById("tab-${tab}").click()`);
        times[tab] = quarter(await stepTimes(21));
    }
    return times;
}

async function steps() {
    const short = await stepsIn(30), long = await stepsIn(3000);
    for (const tab of ["control", "memory"]) {
        within(`a step in 3,000 lines, with ${tab} beside,`, long[tab], STEP, short[tab]);
    }
    for (let line = 60; line <= 3000; line += 60) {
        await page.run(`document.getElementById("answer").textContent = ""`);
        await clickLine(page, line);
        await answers(`breakpoint at line ${line} `);
        await idle();
    }
    const count = `document.querySelectorAll(".CodeMirror .stop").length`;
    check("50 breakpoints are set by clicks", (await page.run(count)) > 0);
    within("a step with 50 breakpoints", quarter(await stepTimes(21)), STEP, short.memory);
    await page.run(`document.getElementById("answer").textContent = ""`);
    await page.alt("R");
    await answers("breakpoint after");
    await idle();
    contains("and a run stops at the next one", await where(), /<l119>/);
}

async function longRun() {
    await open("again:  j again\n");
    await page.alt("R");
    await page.until(`!document.getElementById("progress").hidden`);
    const asked = [];
    while (!(await answer()).includes("still running after 1000000000 steps") && asked.length < 400) {
        const began = performance.now();
        await page.run("new Promise(requestAnimationFrame)");
        asked.push(performance.now() - began);
        await wait(250);
    }
    contains("10^9 steps come to their end", await answer(), /still running after 1000000000 steps; c goes on/);
    check(`meanwhile the page draws within ${Math.round(quarter(asked))} ms`, quarter(asked) < 100);
    await idle();
    await page.alt("R");
    await page.until(`!document.getElementById("progress").hidden`);
    await wait(500);
    const began = performance.now();
    await page.alt("P");
    await answers("paused");
    const time = performance.now() - began;
    check(`Pause takes ${Math.round(time)} ms`, time < PAUSE);
    await idle();
    same("without an error", page.errors.join(), "");
}

await learn(keys, steps, longRun);
