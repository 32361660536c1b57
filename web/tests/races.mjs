// node web/tests/races.mjs PROGRAM: what is asked while something is under way. Tabs that are opened one right after
// another, in a step and in a run; answers that come late; controls that are pressed again and again.
import { check, same } from "./checks.mjs";
import { text } from "./source.mjs";
import { answer, answers, choose, idle, learn, open, page, press, quoted, typeOver, where } from "./user.mjs";

const TABS = ["control", "memory", "stack", "listing", "instruction", "traps", "devices", "protection", "repeat"];
// What stands in each tab, whatever the program.
const SHOWN = {
    control: "mstatus",
    memory: "80000070",
    stack: "sp is 00000000",
    listing: "Source",
    instruction: "opcode",
    traps: "no trap",
    devices: "timer: mtime",
    protection: "serial port",
    repeat: "rvboard SOURCE",
};

// Has a function of an object in the worker take some milliseconds longer.
const slow = (object, name, milliseconds) => page.runInWorker(`{
    const { ${name} } = ${object};
    ${object}.${name} = function (...words) {
        for (const end = performance.now() + ${milliseconds}; performance.now() < end; );
        return ${name}.apply(this, words);
    };
}`);
const asBefore = (object, name) => page.runInWorker(`delete ${object}.${name}`);

const panel = (name) => `document.getElementById("panel-${name}")`;
const has = (name, text) => `${panel(name)}.textContent.includes(${quoted(text)})`;
const shows = (name, text = SHOWN[name]) => page.until(`!${panel(name)}.hidden && ${has(name, text)}`);

// Notes whatever is said from now on.
const listen = () => page.run(`(() => {
    const box = document.getElementById("answer");
    window.said = [];
    window.listener?.disconnect();
    window.listener = new MutationObserver(() => window.said.push(box.textContent));
    window.listener.observe(box, { childList: true, characterData: true, subtree: true });
})()`);
const said = () => page.run("window.said.join('\\n')");

async function heldArrow() {
    await choose("hello");
    await slow("lab", "ask", 2);
    await listen();
    await page.run(`document.getElementById("tab-control").focus()`);
    for (let i = 0; i < 40; i++) await page.press("ArrowRight");
    const last = TABS[40 % TABS.length];
    await shows(last);
    same("with an arrow held on the tabs the last one is shown", await page.run("document.activeElement.id"), `tab-${last}`);
    same("and nothing else is said", await said(), "");
}

// Opens a tab some milliseconds after a step has begun.
async function tabInStep(name, delay) {
    await page.run(`document.getElementById("answer").textContent = ""`);
    await page.run(`new Promise((done) => {
        document.getElementById("step").click();
        setTimeout(() => done(document.getElementById("tab-${name}").click()), ${delay});
    })`);
    await answers("step ");
    await idle();
    await shows(name);
    return answer();
}

async function tabsInSteps() {
    await open("        nop\n".repeat(60));
    await slow("lab", "ask", 2);
    const wrong = [];
    for (const [i, name] of [...TABS, ...TABS, ...TABS].entries()) {
        const text = await tabInStep(name, 7 * i).catch((error) => error.message);
        if (!text.startsWith(`step ${i + 1}`)) wrong.push(`${name} after ${7 * i} ms: ${text}`);
    }
    check("a tab that is opened while a step is under way is shown", !wrong.length, wrong.join("\n"));
    await asBefore("lab", "ask");
}

const stepOf = (text) => Number(text.match(/step ([\d,]+)/)[1].replaceAll(",", ""));
const progress = `document.getElementById("progress").textContent`;

async function tabsInRun() {
    await open("        nop\nagain:  j again\n");
    await listen();
    await page.alt("R");
    await page.until(`!document.getElementById("progress").hidden`);
    for (const name of ["listing", "devices"]) {
        await page.run(`${panel(name)}.querySelector("table, .shown")?.replaceChildren()`);
        await page.run(`document.getElementById("tab-${name}").click()`);
        await shows(name, { listing: "again:", devices: "timer: mtime" }[name]);
        check(`${name} is shown in a run`, true);
    }
    await page.run(`document.getElementById("tab-devices").focus()`);
    for (let i = 0; i < 10; i++) await page.press("ArrowRight");
    await shows("protection");
    check("also after an arrow is held", true);
    await page.until(`!document.getElementById("progress").hidden`);
    const before = stepOf(await page.text("#progress"));
    await page.until(`(${stepOf})(${progress}) > ${before}`);
    check("the run goes on", true);
    same("and nothing is said before its end", await said(), "");
    await press("P", "paused");
    await page.click("#tab-repeat");
    await shows("repeat");
    const given = (await page.text("#panel-repeat .done")).trim().split("\n");
    same("it is one command", given.length, 1);
    await press("Z", "back at step 0");
    check("that Undo takes back", /step 0$/.test(await where()));
}

// A run that is paused while a tab is shown stays paused.
async function pausedInLook() {
    await open("again:  j again\n");
    await slow("lab", "ask", 5);
    for (const delay of [0, 20, 60, 150]) {
        await page.alt("R");
        await page.until(`!document.getElementById("progress").hidden`);
        await page.run(`new Promise((done) => {
            document.getElementById("tab-control").click();
            setTimeout(() => done(document.getElementById("pause").click()), ${delay});
        })`);
        await idle();
        await answers("paused");
        const before = await where();
        await new Promise((done) => setTimeout(done, 400));
        same(`paused ${delay} ms after a tab is opened, a run stays so`, await where(), before);
    }
    await page.run(`document.getElementById("tab-memory").click()`);
    await page.alt("R");
    await page.alt("P");
    await idle();
    await answers("paused");
    check("a run that is paused before it begins doesn't begin", true);
    await asBefore("lab", "ask");
}

async function heldKey() {
    await open("        nop\n".repeat(60));
    await slow("lab", "ask", 1);
    await listen();
    for (let i = 0; i < 12; i++) await page.alt("S");
    await idle();
    check("a step whose key is held takes several steps", stepOf(await where()) > 1, await where());
    check("and isn't refused", !(await said()).includes("pause it first"), await said());
    await asBefore("lab", "ask");
}

// Faults are those of the text that is there.
async function lateFaults() {
    await choose("hello");
    await slow("checker", "load", 500);
    await page.run(`(() => {
        const faults = document.getElementById("faults");
        window.isLate = false;
        new MutationObserver(() => {
            if (faults.querySelector("button") && !${text}.includes("LI")) window.isLate = true;
        }).observe(faults, { childList: true, subtree: true });
    })()`);
    await typeOver("li ", "LI ");
    await new Promise((done) => setTimeout(done, 450));
    await typeOver("LI ", "li ");
    await new Promise((done) => setTimeout(done, 1500));
    check("the faults of a text that has changed meanwhile aren't shown", !(await page.run("window.isLate")));
    await asBefore("checker", "load");
    await typeOver("li ", "LI ");
    await page.until(`document.querySelectorAll("#faults button").length === 1`);
    check("those of the text that is there are", true);
    await typeOver("LI ", "li ");
    await page.until(`document.querySelectorAll("#faults button").length === 0`);
}

async function unasked() {
    await choose("hello");
    await page.runInWorker(`postMessage({ id: 1e9, result: [] })`);
    await page.runInWorker(`postMessage({ id: 1e9, steps: 77777, sent: "unasked" })`);
    await press("S", "step 1");
    check("an answer to no question is dropped", !page.errors.length, page.errors.join());
    const seen = (await page.text("#progress")) + (await page.text("#console"));
    check("and so is progress of no run", !/77,777|unasked/.test(seen), seen);
}

await learn(heldArrow, tabsInSteps, tabsInRun, pausedInLook, heldKey, lateFaults, unasked);
