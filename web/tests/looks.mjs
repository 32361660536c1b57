// node web/tests/looks.mjs PROGRAM: what the page looks like and what is seen at once: panes that can be resized, formats
// of registers, memory, the stack, a phone, and a print.
import { hangingColumn } from "../wrapping.mjs";
import { check, contains, same } from "./checks.mjs";
import { openPage } from "./chromium.mjs";
import { editor } from "./source.mjs";
import { choose, lab, learn, open, page, press, quoted, sourceOf, url } from "./user.mjs";

const element = (id) => `document.getElementById(${quoted(id)})`;
const boxOf = `(({ x, y, width, height }) => ({ x, y, width, height }))`;
const box = (id) => page.run(`${boxOf}(${element(id)}.getBoundingClientRect())`);
const settle = () => new Promise((done) => setTimeout(done, 100));

// Draws with the mouse from the middle of an element.
async function drag(id, right, down) {
    const { x, y, width, height } = await box(id), from = { x: x + width / 2, y: y + height / 2 };
    const held = { button: "left", clickCount: 1, buttons: 1 };
    const mouse = (type, at) => page.call("Input.dispatchMouseEvent", { type, ...at, ...held });
    await mouse("mousePressed", from);
    await mouse("mouseMoved", { x: from.x + right, y: from.y + down });
    await mouse("mouseReleased", { x: from.x + right, y: from.y + down });
}

const near = (a, b) => Math.abs(a - b) < 8;

async function panes() {
    const before = await box("source");
    await drag("split-source", 120, 0);
    const after = await box("source");
    check("the source is made wider by the line beside it", near(after.width, before.width + 120), after.width);
    const console_ = await box("console");
    await drag("split-console", 0, -60);
    check("and the console higher", near((await box("console")).height, console_.height + 60));
    const width = `document.documentElement.style.getPropertyValue("--source-width")`, wide = await page.run(width);
    await drag("split-console", 0, 60);
    await drag("split-answer", 0, -20);
    const answer = await box("answer");
    await page.reload();
    same("their sizes are remembered", await page.run(width), wide);
    check("each of them", near((await box("answer")).height, answer.height));
    await page.run(`${element("split-source")}.focus()`);
    await page.press("ArrowRight");
    check("an arrow moves the line, too", (await box("source")).width > after.width + 5);
    const value = Number(await page.run(`${element("split-source")}.getAttribute("aria-valuenow")`));
    check("and a screen reader gets its place", value >= 20 && value <= 70, value);
    await page.run(`for (const it of document.querySelectorAll(".split")) it.dispatchEvent(new MouseEvent("dblclick"))`);
    same("a double click sets it back", (await box("source")).width, before.width);
}

async function controls() {
    const colour = (id) => page.run(`getComputedStyle(${element(id)}).backgroundColor`);
    await choose("hello");
    const [run, step, pause] = [await colour("run"), await colour("step"), await colour("pause")];
    check("Run is the primary control", run !== step && run !== pause, [run, step, pause].join(" "));
    await open("again:  j again\n");
    await page.alt("R");
    await page.until(`!${element("progress")}.hidden`);
    check("and Pause while the board runs", (await colour("pause")) === run && (await colour("run")) !== run);
    await press("P", "paused");
    const wrong = await page.run(`[...document.querySelectorAll("#controls button")]
        .filter((it) => !it.querySelector("svg[aria-hidden]") || !it.title.includes("Alt+")).map((it) => it.id).join()`);
    same("each control has an icon, and words with its key", wrong, "");
    const header = await page.run(`[...document.querySelectorAll("header button")]
        .filter((it) => !it.querySelector("svg[aria-hidden]") || !it.title).map((it) => it.id).join()`);
    same("so has what stands above them", header, "");
    check("they stand in groups", (await page.run(`document.querySelectorAll("#controls .group").length`)) >= 4);
}

const register = (name) => page.run(`[...document.querySelectorAll("#registers li")]
    .find((it) => it.querySelector("b").textContent === ${quoted(name)}).textContent.replace(/\\s+/g, " ").trim()`);

async function formats() {
    await open("        li a0,-2\n        li a1,65\n        nop\n");
    await lab("s 2", "stopped after");
    const tried = [["hexadecimal", "a0 fffffffe", "a1 00000041"], ["signed", "a0 -2", "a1 65"]];
    tried.push(["unsigned", "a0 4294967294", "a1 65"], ["characters", 'a0 "...."', "a1 'A'"]);
    tried.push(["binary", "a0 11111111 11111111 11111111 11111110", "a1 00000000 00000000 00000000 01000001"]);
    for (const [format, a0, a1] of tried) {
        await page.run(`{
            ${element("format")}.value = ${quoted(format)};
            ${element("format")}.dispatchEvent(new Event("change"));
        }`);
        const got = [await register("a0"), await register("a1")].map((it) => it.replace("*changed", "").trim());
        same(`registers are shown as ${format}`, got.join(), [a0, a1].join());
    }
    await page.reload();
    same("the format is remembered", await page.run(`${element("format")}.value`), "binary");
    await page.run(`{
        ${element("format")}.value = "hex and meaning";
        ${element("format")}.dispatchEvent(new Event("change"));
    }`);
}

const showFrom = (where) => page.run(`{
    ${element("memory-where")}.value = ${quoted(where)};
    ${element("memory-where")}.dispatchEvent(new Event("change"));
}`);
const rows = () => page.run(`[...document.querySelectorAll("#panel-memory tbody tr")].map((it) => it.innerText)`);

async function memory() {
    await choose("recursion");
    await lab("until print", "stopped after");
    await lab("s 2", "stopped after");
    await page.click("#tab-memory");
    await page.until(`document.querySelectorAll("#panel-memory tbody tr").length > 0`);
    const { height } = await box("memory-rows");
    const row = await page.run(`document.querySelector("#panel-memory tbody tr").getBoundingClientRect().height`);
    const filled = (await rows()).length * row;
    check("memory fills its pane", filled > height - 4 * row && filled <= height, `${filled} of ${height}`);
    await page.run(`${element("memory-rows")}.scrollTop = 1000 * ${row}`);
    await page.until(`document.querySelector("#panel-memory td").textContent === "80003e80"`);
    check("it scrolls to what is far", true);
    const most = `${element("memory-rows")}.scrollTop = ${element("memory-rows")}.scrollHeight`;
    await page.run(most);
    await page.until(`[...document.querySelectorAll("#panel-memory tbody tr")].at(-1).innerText.startsWith("800ffff0")`);
    check("and to its last byte", true);
    const width = `(({ scrollWidth, clientWidth }) => scrollWidth <= clientWidth)(${element("memory-rows")})`;
    check("at 1280 its rows aren't cut", await page.run(width));
    for (const name of ["pc", "sp"]) {
        await showFrom(name);
        await page.until(`document.querySelector("#panel-memory tbody tr").innerText.includes("◀ ${name}")`);
        check(`${name} is marked`, true);
    }
    await press("S", "step");
    contains("and stays so after a step", (await rows())[0], /◀ sp/);
    await showFrom("0x10000000");
    await page.until(`document.querySelector("#panel-memory td")?.textContent === "10000000"`);
    contains("where no memory is, none is shown", (await rows())[0], /-- -- --/);
}

async function stack() {
    await choose("recursion");
    await lab("until print", "stopped after");
    await lab("s 2", "stopped after");
    await page.click("#tab-stack");
    await page.until(`document.querySelector("#panel-stack tbody tr")`);
    const first = await page.run(`document.querySelector("#panel-stack tbody tr").innerText`);
    contains("the stack begins at sp", first, /sp \+ 0\s.*◀ sp/);
    const line = sourceOf("recursion").split("\n").findIndex((it) => it.includes("call    print")) + 2;
    contains("and says where a call came from", await page.text("#panel-stack"), new RegExp(`line ${line}: `));
    await page.click("#tab-control");
}

// Lines that are wider than the editor.
async function wrapped() {
    const wide = `        nop                     # ${"a comment of many words ".repeat(5)}`;
    await open(`${wide}\n        nop\n`);
    const lines = `[...document.querySelectorAll(".CodeMirror-line")].slice(0, 2)`;
    const [first, second] = await page.run(`${lines}.map((it) => it.getBoundingClientRect().height)`);
    check("a wide line goes on below", first > 1.9 * second, `${first} and ${second}`);
    same("so that nothing of it is cut", await page.run(`${lines}[0].scrollWidth <= ${lines}[0].clientWidth`), true);
    const letter = await page.run(`${editor}.defaultCharWidth()`), pieces = `[...${lines}[0].querySelector(".cm-comment").getClientRects()]`;
    const words = `${pieces}.filter(({ width }) => width > ${1.5 * letter})`; // and not the blanks at the ends of lines
    const [at, ...others] = await page.run(`${words}.map(({ left }) => Math.round(left))`);
    check("under its comment", others.every((it) => Math.abs(it - at - 2 * letter) < 3), [at, ...others].join());
    await page.run(`${editor}.focus(), ${editor}.setCursor(0, ${wide.length})`);
    await page.type("x".repeat(3000));
    await page.until(`!document.querySelector(".CodeMirror-wrap")`);
    check("but where one is very long, none is wrapped", true);
    await choose("hello");
    same("up to the next source", await page.run(`document.querySelectorAll(".CodeMirror-wrap").length`), 1);
    for (const [text, columns, column] of HANGING) same(`${text} goes on at ${column}`, hangingColumn(text, columns), column);
}

const HANGING = [
    ["        li t1,5         # to come", 60, 26],
    ["        li t1,5         # to come", 30, 16],
    ["# a comment", 60, 2],
    ["x:      nop", 60, 8],
    ['.asciz "a # b" // c', 80, 18],
    ["\tli\ta0,'#'\t# z", 80, 26],
];

// Narrow panes, and what stands beside each other.
async function narrow() {
    await choose("recursion");
    await lab("until print", "stopped after");
    const gap = `(([hex, meaning]) => meaning.getBoundingClientRect().left - hex.getBoundingClientRect().right)(
        document.querySelectorAll("#registers li:nth-child(3) > span:not(.unseen)"))`;
    const distance = await page.run(gap);
    check(`what a register means stands ${Math.round(distance)} pixels beside it`, 0 <= distance && distance < 16);
    await page.click("#tab-memory");
    await showFrom("sp");
    await page.until(`document.querySelector("#panel-memory tbody tr")?.innerText.includes("◀ sp")`);
    const bytes = async () => (await rows())[0].match(/\b[0-9a-f]{2}\b/g).length;
    same("a row of memory has 16 bytes", await bytes(), 16);
    await page.run(`document.documentElement.style.setProperty("--source-width", "66%")`);
    await page.until(`document.querySelector("#panel-memory tbody tr td:nth-child(2)").textContent.length < 24`);
    same("and 8 in a narrow pane", await bytes(), 8);
    const width = `(({ scrollWidth, clientWidth }) => scrollWidth <= clientWidth)(${element("memory-rows")})`;
    check("where they aren't cut either", await page.run(width));
    await page.run(`${element("memory-rows")}.scrollTop = ${element("memory-rows")}.scrollHeight`);
    await page.until(`[...document.querySelectorAll("#panel-memory tbody tr")].at(-1).innerText.startsWith("800ffff8")`);
    check("and which scroll to the last byte", true);
    await page.run(`document.documentElement.style.removeProperty("--source-width")`);
    await page.until(`document.querySelector("#panel-memory tbody tr td:nth-child(2)").textContent.length > 40`);
    await page.click("#tab-control");
}

const phone = { width: 390, height: 844 };

async function onPhone() {
    const small = await openPage(url, phone), run = small.run;
    await small.ready();
    const parts = `["step", "editor", "registers"].map((id) => document.getElementById(id).getBoundingClientRect())`;
    const last = await run(`Math.max(...${parts}.map(({ bottom }) => bottom))`);
    check(`on a phone Step, the source and the registers are in one view, of ${Math.round(last)} pixels`, last <= 664, last);
    const rights = await run(`[...document.querySelectorAll("#registers li")].map((it) => it.getBoundingClientRect().right)`);
    same("with all registers", rights.filter((it) => it <= phone.width).length, 32);
    same("nothing is cut at the side", await run("document.documentElement.scrollWidth <= innerWidth"), true);
    const controls = `[...document.querySelectorAll("header button, header select, #controls button, #controls select")]`;
    const beyond = `${controls}.filter((it) => it.checkVisibility() && it.getBoundingClientRect().right > innerWidth).map((it) => it.id)`;
    same("no control has to be scrolled to", (await run(beyond)).join(), "");
    const unseen = `${controls}.filter((it) => !it.checkVisibility()).map((it) => it.id).join()`;
    same("Pause takes the place of Run", await run(unseen), "pause");
    await run(`document.body.dataset.runs = "yes"`);
    same("while the board runs", await run(unseen), "run");
    await run(`document.body.dataset.runs = "no"`);
    const all = `[...document.querySelectorAll("button, select, input, textarea")].filter((it) => it.checkVisibility())`;
    const low = `${all}.filter((it) => it.type !== "checkbox" && it.getBoundingClientRect().height < 43.5).map((it) => it.id)`;
    same("what is touched is 44 pixels high", (await run(low)).join(), "");
    const fields = `${all}.filter((it) => it.matches("input, select, textarea"))`;
    const tiny = await run(`${fields}.filter((it) => parseFloat(getComputedStyle(it).fontSize) < 16).map((it) => it.id)`);
    same("and what is typed in has letters of 16", tiny.join(), "");
    same("without an error", small.errors.join(), "");
    await small.close();
}

async function print() {
    await open("        nop\n".repeat(400));
    await page.run(`${element("panels")}.scrollTop; dispatchEvent(new Event("beforeprint"))`);
    await page.call("Emulation.setEmulatedMedia", { media: "print" });
    await settle();
    same("a print has all lines", await page.run(`document.querySelectorAll(".CodeMirror-line").length`), 401);
    const shown = `["controls", "load", "ask", "tabs"].filter((id) => document.getElementById(id).checkVisibility())`;
    same("and no controls", (await page.run(shown)).join(), "");
    const { data } = await page.call("Page.printToPDF", {});
    const count = Buffer.from(data, "base64").toString("latin1").match(/\/Type\s*\/Page\b/g).length;
    check(`on ${count} pages`, count > 4 && count < 40);
    await page.call("Emulation.setEmulatedMedia", { media: "" });
    await page.run(`dispatchEvent(new Event("afterprint"))`);
    check("after it the lines in sight", (await page.run(`document.querySelectorAll(".CodeMirror-line").length`)) < 200);
}

await learn(panes, controls, formats, memory, narrow, wrapped, stack, onPhone, print);
