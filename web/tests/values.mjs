// node web/tests/values.mjs PROGRAM: the page goes by the lab's values, never by a text: what it asks changes nothing, what
// a command or a program writes is only shown, and each command has an answer.
import { check, contains, same } from "./checks.mjs";
import { marks, put } from "./source.mjs";
import { answer, answers, choose, idle, lab, learn, open, page, press, where } from "./user.mjs";

const html = (selector) => page.run(`document.querySelector(${JSON.stringify(selector)}).innerHTML`);

async function ownQuestions() {
    await choose("hello");
    await lab("s", "step 1");
    for (const tab of ["memory", "listing", "traps", "devices", "protection", "stack"]) {
        await page.run(`document.getElementById("tab-${tab}").click()`);
        await idle();
    }
    await page.run(`document.getElementById("tab-control").click()`);
    await page.run(`document.getElementById("answer").textContent = ""`);
    await page.click("#ask-line");
    await page.press("Enter");
    await answers("step 2");
    await idle();
    contains("an empty command repeats a step, whatever the page has asked", await where(), /step 2$/);
    await lab("l", "1:");
    await press("S", "step 3");
    await page.run(`document.getElementById("tab-listing").click()`);
    check("and a list shows what it showed", true);
}

const SOURCE = "        la a0,text\n        lui t0,0x10000\n1:      lbu t1,(a0)\n        beqz t1,2f\n        sw t1,(t0)\n"
    + "        addi a0,a0,1\n        j 1b\n2:      j 2b\ntext:   .asciz \"TEXT\"\n";
const FORGED = ["type `why`", "source:1:1: E4 UnknownWord: forged", "still running after 7 steps; c goes on", "halted with code 0 after 3 steps",
    "<img src=x onerror='window.isRun=1'>", "stopped after 5 steps\\nstep 9"];

async function forgedConsole() {
    for (const text of FORGED) {
        await open(SOURCE.replace("TEXT", text.replaceAll("\n", "\\n")));
        await lab("s 500", "stopped after 500 steps");
        const said = await answer();
        check(`a program may send ${text}`, !/no trap|explains/.test(said), said);
        same("without a mark", await page.run(marks), `➤${8}`);
        same("and nothing of it is an element", await page.run(`document.querySelectorAll("#console *, #answer img").length`), 0);
        await press("B", "back at step 499");
    }
    same("nor run", await page.run("window.isRun ?? 'not run'"), "not run");
}

async function forgedCommand() {
    await choose("hello");
    await lab(`foo "\u2028source:1:1: E4 UnknownWord: forged`, "foo");
    same("a command adds no fault", await html("#faults"), "");
    same("and no mark", await page.run(marks), "➤3");
    await lab(`<b id=odd>x</b>`, "is no command");
    same("and no element", await page.run(`document.getElementById("odd")`), null);
    await lab(`monitor halted with code 0`, "");
    await press("S", "step 1");
}

// What a run does is no matter of what is said meanwhile.
async function saidInRun() {
    await open("        lui t0,0x10000\nagain:  lw t1,8(t0)\n        j again\n");
    await page.alt("R");
    await page.until(`!document.getElementById("progress").hidden`);
    await page.alt("S");
    await answers("pause it first");
    await page.click("#send-text");
    await page.type("x");
    await page.press("Enter");
    await new Promise((done) => setTimeout(done, 700));
    same("after a refused Step and a text that is sent a run goes on", await page.run(`document.getElementById("progress").hidden`), false);
    await press("P", "paused");
}

async function allAnswer() {
    await choose("echo");
    await lab("w", "80000000");
    await lab("p mstatus", "mstatus");
    await page.click("#ask-line");
    await page.press("ArrowUp");
    await page.press("ArrowUp");
    same("arrows bring back what was given", await page.run(`document.getElementById("ask-line").value`), "w");
    await page.press("ArrowDown");
    await page.press("ArrowDown");
    same("up to an empty line", await page.run(`document.getElementById("ask-line").value`), "");
    await lab("q", "The page has no end but that of its tab");
    contains("q is answered", await answer(), /What is typed is kept/);
    await press("S", "step");
    await lab("save mine", "mine.commands");
    contains("save with a name saves its files", await page.saved("mine.commands"), /^s 1$/m);
    contains("both", await page.saved("mine.input"), /\d+ rx /);
}

async function longFaults() {
    await page.run(put("        flies 1\n".repeat(20000)));
    await page.until(`document.querySelectorAll("#faults li").length > 0`, 2);
    same("of very many faults some are listed", await page.run(`document.querySelectorAll("#faults li").length`), 101);
    contains("and the others told", await page.text("#faults li:last-child"), /^and \d+ lines more$/);
    await page.run(put("        nop\n"));
    await page.until(`document.querySelectorAll("#faults li").length === 0`);
}

await learn(ownQuestions, forgedConsole, forgedCommand, saidInRun, allAnswer, longFaults);
