// node web/tests/path.mjs PROGRAM: the path of lessons. A lesson is not done as it is given, and it is done with an answer;
// a teacher's own comes by a link.
import { spawnSync } from "node:child_process";
import fs from "node:fs";
import path from "node:path";
import { judge, readLesson } from "../lesson.mjs";
import { ANSWERS } from "./answers.mjs";
import { check, contains, same } from "./checks.mjs";
import * as source from "./source.mjs";
import { agree, answer, answers, idle, learn, page, press, room, text, top, url } from "./user.mjs";

const lessons = `${top}/web/lessons`;
const textOf = (name) => fs.readFileSync(`${lessons}/${name}.lesson`, "utf8");

// Without a browser: what a lesson's file says, and when its checks hold.
async function files() {
    const names = fs.readdirSync(lessons).map((it) => it.replace(".lesson", ""));
    same("each lesson has an answer here", names.sort().join(), Object.keys(ANSWERS).sort().join());
    const refused = (text) => {
        try {
            return readLesson(text).title;
        } catch (error) {
            return error.message;
        }
    };
    contains("a lesson without a title is refused", refused("x\n== program\nnop\n== check\nhalts 0\n"), /begins with a line/);
    contains("or without a check", refused("title: x\n== program\nnop\n"), /has a program and a check/);
    contains("or with a check that is none", refused("title: x\n== program\nnop\n== check\nflies\n"), /no check: flies/);
    const run = { halted: 3, steps: 9, console: "a\n", registers: [{ name: "a0", value: 0xfffffffe }], traps: [{ cause: 7 }] };
    const found = { names: new Map([["end", 0x80000010]]), words: new Map([["sum", 5]]) };
    const holds = (line) => {
        const [it] = readLesson(`title: x\n== program\nnop\n== check\n${line}\n`).checks;
        return judge(it, run, found).holds;
    };
    const yes = ["halts 3", 'sends "a\\n"', "register a0 = -2", "register a0 = 0xfffffffe", "memory sum = 5", "trap 7", "steps 9"];
    const no = ["halts 0", 'sends "a"', "register a0 = 2", "register a1 = 0", "memory sum = end", "memory x = 0", "trap 5", "no trap", "steps 8"];
    same("checks that hold", yes.filter((it) => !holds(it)).join(), "");
    same("and those that don't", no.filter(holds).join(), "");
}

const results = `[...document.querySelectorAll("#lesson-results li")].map((it) => it.className).join()`;
const put = (it) => page.run(source.put(it));

// Checks the lesson once the board is at rest: what is said of a program that is still being assembled would come
// after the check's own answer, and hide it.
async function checked(expected) {
    await idle();
    await page.run(`document.getElementById("answer").textContent = ""`);
    await page.click("#lesson-check");
    await answers(expected);
}

async function each() {
    await page.click("#lessons");
    await page.until(`!document.getElementById("lesson").hidden`);
    for (const [i, [name, changes]] of Object.entries(ANSWERS).entries()) {
        const lesson = readLesson(textOf(name));
        await page.until(`${source.text} === ${JSON.stringify(lesson.program)}`);
        await idle();
        same(`lesson ${i + 1} is ${name}`, await page.text("#lesson-text h2"), lesson.title);
        const all = "document.documentElement.scrollHeight <= innerHeight";
        check(`at 1280 by 720 all of ${name} is in sight`, await page.run(all), await page.run("document.documentElement.scrollHeight"));
        await checked("Not yet");
        contains(`${name} isn't done as it is given`, await page.run(results), /fails/);
        const done = changes.reduce((text, [old, text_]) => text.replace(old, () => text_), lesson.program);
        check(`the answer of ${name} changes it`, done.length > lesson.program.length);
        await put(done);
        await checked("");
        await page.until(`/^(Done|Not yet|The source)/.test(document.getElementById("answer").textContent)`);
        contains(`and it is done with an answer`, await answer(), /^Done: all is as the lesson asks/);
        same(`each check of ${name} holds`, (await page.run(results)).replaceAll(/holds,?/g, ""), "");
        if (i + 1 < Object.keys(ANSWERS).length) {
            await page.click("#lesson-next");
            await page.until(`document.getElementById("question").open`);
            await agree();
        }
    }
    check("after the last one there is no next", await page.run(`document.getElementById("lesson-next").hidden`));
    same("what is done is remembered", await page.run(`document.querySelectorAll("#lesson-choice option").length`), 5);
    contains("in the list", await page.text("#lesson-choice"), /1\. A first program ✓.*5\. Protection ✓/s);
}

async function refused() {
    await put("        flies\n");
    await checked("The source is refused");
    check("a source that is refused is told as one", true);
    await page.click("#lesson-again");
    await agree();
    await page.until(`${source.text} === ${JSON.stringify(readLesson(textOf("protection")).program)}`);
    check("Start again brings the program back", true);
    await page.runInWorker(`{
        self.kept = acts.examine;
        acts.examine = () => { throw new WebAssembly.RuntimeError("worn out"); };
    }`);
    await checked("made anew: assemble again");
    check("a board that is lost in a check is told", (await answer()).includes("worn out"));
    await page.runInWorker("acts.examine = self.kept");
    await press("A", "Assembled");
    await page.click("#lesson-close");
    check("the panel can be closed", await page.run(`document.getElementById("lesson").hidden`));
}

async function linked() {
    await page.visit(`${url}#lesson=trap`);
    same("a link names a lesson", await page.text("#lesson-text h2"), "A trap handler");
    const own = `title: My <b>own</b> lesson\n\nIt wants \`a0\` = **4**.\n\n== program\n        li a0,3\n        nop\n== check\nregister a0 = 4\n`;
    const file = path.join(room, "own.lesson");
    fs.writeFileSync(file, own);
    const { stdout } = spawnSync(`${top}/web/lesson`, [file, url], { encoding: "utf8" });
    check("web/lesson makes a link of a file", stdout.startsWith(`${url}#lesson=`), stdout);
    await page.visit(stdout.trim());
    same("a teacher's own lesson comes by a link, as text", await page.text("#lesson-text h2"), "My <b>own</b> lesson");
    same("with its program", await text(), "        li a0,3\n        nop\n");
    await checked("Not yet");
    await put("        li a0,4\n        nop\n");
    await checked("Done");
    check("and its check", true);
    await page.reload();
    same("it outlives a reload", await page.text("#lesson-text h2"), "My <b>own</b> lesson");
    same("with what is typed", await text(), "        li a0,4\n        nop\n");
    for (const wrong of ["nowhere", "constructor", "%zz"]) {
        await page.visit(`${url}?x#lesson=${wrong}`);
        contains(`${wrong} is told as no lesson`, await answer(), /The link holds no lesson/);
    }
    fs.writeFileSync(file, "title: none\n");
    const { status, stderr } = spawnSync(`${top}/web/lesson`, [file], { encoding: "utf8" });
    same("a file that is no lesson gets no link", status, 3);
    contains("with the reason", stderr, /has a program and a check/);
    await press("S", "step 1");
}

await learn(files, each, refused, linked);
