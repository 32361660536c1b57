// A user of the page in headless Chromium, which is opened from disk: what the tests do by clicks and keys, and
// what the built program, whose path is the first word, prints.
import { spawnSync } from "node:child_process";
import fs from "node:fs";
import os from "node:os";
import path from "node:path";
import { fileURLToPath } from "node:url";
import { check, finish, same } from "./checks.mjs";
import { openPage } from "./chromium.mjs";
import * as source_ from "./source.mjs";

const program = path.resolve(process.argv[2]);
export const top = fileURLToPath(new URL("../..", import.meta.url));
export const room = fs.mkdtempSync(path.join(os.tmpdir(), "rv-lessons-"));
export const url = `file://${top}/out/web/index.html`;
export const page = await openPage(url);

export const sourceOf = (name) => fs.readFileSync(`${top}/examples/${name}.s`, "utf8");

// What the built program prints, also on standard error, for a source, a timed list and commands.
export function native(source, { inputs, commands, words = [] } = {}) {
    const all = [`${room}/source.s`, ...words];
    fs.writeFileSync(all[0], source);
    for (const [name, text] of Object.entries({ input: inputs, commands })) {
        if (text === undefined) continue;
        fs.writeFileSync(`${room}/${name}`, text);
        all.push(`--${name}`, `${room}/${name}`);
    }
    const { stdout, stderr } = spawnSync(program, all, { maxBuffer: 1 << 28 });
    return `${stdout}${stderr}`;
}

export const quoted = (text) => JSON.stringify(text);
export const idle = () => page.until(`document.getElementById("pause").getAttribute("aria-disabled") === "true"`);
const answered = `document.getElementById("answer").textContent`;
export const answers = (text) => page.until(`${answered}.includes(${quoted(text)})`);
export const answer = () => page.text("#answer");
export const where = () => page.text("#where");

// Pauses the next run as soon as its progress is shown: it may be over before a test has looked twice.
export const pauseWhenRunning = () => page.run(`(() => {
    const line = document.getElementById("progress");
    const observer = new MutationObserver(() => {
        if (line.hidden) return;
        observer.disconnect();
        document.getElementById("pause").click();
    });
    observer.observe(line, { attributes: true });
})()`);

const isAtReset = () => page.until(`/step 0$/.test(document.getElementById("where").textContent)`);

// Puts a source, a timed list and a size of memory into the page, and assembles them.
export async function open(source, inputs = "", pages = 256) {
    await idle();
    await page.run(`(() => {
        ${source_.put(source)};
        document.getElementById("inputs").value = ${quoted(inputs)};
        document.getElementById("pages").value = ${pages};
        document.getElementById("answer").textContent = "";
    })()`);
    await page.alt("A");
    await answers("Assembled");
    await isAtReset();
}

// Loads an example of the list.
export async function choose(name) {
    await idle();
    await page.run(`(() => {
        const examples = document.getElementById("example");
        document.getElementById("answer").textContent = "";
        examples.value = ${quoted(name)};
    })()`);
    await page.click("#load");
    await agree();
    await answers("Assembled");
    await isAtReset();
}

// Agrees to the page's question, if it asks one, and notes it.
export async function agree() {
    const text = `document.getElementById("question-text").textContent`;
    const asked = await page.run(`document.getElementById("question").open && ${text}`);
    if (!asked) return;
    page.asked.push(asked);
    await page.click("#agree");
}

// The source, the mark beside a line, and all marks.
export const text = () => page.run(source_.text);
export const mark = (line) => page.run(source_.mark(line));
export const marks = () => page.run(source_.marks);

// Clicks the number of a line.
export const clickLine = (line) => source_.clickLine(page, line);

// Types over the first place of a text in the source.
export const typeOver = (old, text) => source_.typeOver(page, old, text);

// Types some characters, each by its key.
export async function type(text) {
    for (const it of text) await page.call("Input.dispatchKeyEvent", { type: "char", text: it });
}

const forget = () => page.run(`document.getElementById("answer").textContent = ""`);

// Presses Alt and a key, and waits for the answer and the end of what it begins.
export async function press(key, expected) {
    await forget();
    await page.alt(key);
    await answers(expected);
    await idle();
}

// Gives a command of the lab.
export async function lab(line, expected) {
    await forget();
    await page.click("#ask-line");
    await page.type(line);
    await page.press("Enter");
    await answers(expected);
    await idle();
}

// The console and the last line, as rvboard prints them.
export async function printed() {
    const sent = await page.text("#console"), said = await answer();
    const [, code, steps] = said.match(/halted with code (\d+) after (\d+) steps?/) ?? [];
    const end = sent && !sent.endsWith("\n") ? "\n" : "";
    return `${sent}${end}halted ${code} after ${steps} steps\n`;
}

// Goes through lessons one by one: one that can't be ended is a check that failed.
export async function learn(...lessons) {
    await page.ready();
    for (const lesson of lessons) await lesson().catch((error) => check(lesson.name, false, error.message));
    same("the page has no error", page.errors.join("\n"), "");
    await page.close();
    fs.rmSync(room, { recursive: true });
    finish();
}
