// node web/tests/readers.mjs PROGRAM: what a screen reader reads, and when; and keys, also of other keyboards.
import { check, contains, same } from "./checks.mjs";
import * as source from "./source.mjs";
import { answer, answers, choose, idle, learn, open, page, press, sourceOf, text, type, typeOver } from "./user.mjs";

const CONTROLS = ["Assemble", "Run", "Pause", "Step", "Step over", "Step out", "Step back", "Undo", "Reset", "Run to trap"];
CONTROLS.push("Why? Explain the trap", "Breakpoint");
const OTHERS = ["Load the example", "Send the text", "Do the command"];

const nodes = async () => (await page.call("Accessibility.getFullAXTree")).nodes.filter((node) => !node.ignored);

// What is read of the first element of a role, or of that with a name, with all that is in it.
async function readOf(role, name) {
    const { nodes: all } = await page.call("Accessibility.getFullAXTree");
    const byId = new Map(all.map((node) => [node.nodeId, node]));
    const texts = ({ ignored, role, name, childIds }) => {
        if (role?.value === "StaticText" && !ignored) return [name.value];
        return (childIds ?? []).flatMap((id) => (byId.has(id) ? texts(byId.get(id)) : []));
    };
    const isIt = (node) => !node.ignored && node.role?.value === role && (!name || node.name?.value === name);
    return texts(all.find(isIt)).join("");
}

async function lines() {
    await choose("hello");
    const read = (await readOf("textbox", "Source")).replaceAll("\u200b", "").replaceAll("\u00a0", " ");
    same("the source is read as its lines, without their numbers", read, sourceOf("hello").replaceAll("\n", ""));
}

// Notes each text that comes into an element, and how many go, from now on.
const observe = (id) => page.run(`(() => {
    window.came = [];
    window.went = 0;
    window.observer?.disconnect();
    window.observer = new MutationObserver((records) => {
        for (const { addedNodes, removedNodes } of records) {
            window.came.push(...[...addedNodes].map((it) => it.textContent));
            window.went += removedNodes.length;
        }
    });
    window.observer.observe(document.getElementById("${id}"), { childList: true });
})()`);
const came = () => page.run("window.came.join('|')");

async function faults() {
    await choose("hello");
    await typeOver("li ", "LI ");
    await page.until(`document.querySelectorAll("#faults li").length > 0`);
    const all = await nodes(), source = all.find((node) => node.name?.value === "Source" && node.role.value === "textbox");
    contains("the source is described by its fault", source.description?.value ?? "", /`LI` is neither .*write `li`/);
    const { backendDOMNodeId } = all.find((node) => /Go to line \d+/.test(node.name?.value)) ?? {};
    check("its button says what it does", backendDOMNodeId !== undefined);
    const live = all.filter((node) => node.properties?.some(({ name, value }) => name === "live" && value.value === "polite"));
    check("the list of faults is read out as it changes", live.some((node) => node.role.value === "list"));
    await observe("faults");
    await typeOver("# ", "# some words more ");
    await new Promise((done) => setTimeout(done, 700));
    same("one that stays isn't read again", await came(), "");
    await typeOver("LI ", "li ");
    await page.until(`document.querySelectorAll("#faults li").length === 0`);
    const said = await page.run(`document.getElementById("mended")?.textContent`);
    contains("that it is mended is said", String(said), /no fault any more/);
    await typeOver("# some words more ", "# ");
}

async function console_() {
    const send = (byte) => `        li a0,${byte}\n        sw a0,(t0)\n`;
    await open(`        lui t0,0x10000\n${send(65)}${send(66)}again:  j again\n`);
    await observe("console");
    for (let i = 1; i <= 6; i++) await press("S", `step ${i}`);
    same("of the console what is new is read out", await came(), "A|B");
    same("and nothing goes", await page.run("window.went"), 0);
    await press("B", "back at step 5");
    await press("B", "back at step 4");
    same("after a way back nothing is read again", await came(), "A|B");
    same("and the end is cut off", await page.text("#console"), "A");
    await press("S", "step 5");
    contains("what is sent is shown with the step", await answer(), /^\| .*B/m);
    check("and read from the console", (await readOf("log")).includes("B"));
    const read = await readOf("status");
    check("alone", !/^\|/m.test(read) && read.includes("step 5"), read);
}

async function names() {
    const all = (await nodes()).filter((node) => node.role?.value === "button").map((node) => node.name?.value);
    same("the controls are named by what they do", all.filter((name) => CONTROLS.includes(name)).join(), CONTROLS.join());
    same("and the other buttons", OTHERS.filter((name) => !all.includes(name)).join(), "");
    await page.run(`document.getElementById("tab-devices").click()`);
    const lines = (await nodes()).filter((node) => node.role?.value === "switch").map((node) => node.name?.value);
    same("the lines too", lines.slice(0, 2).join(), "Line 1,Line 2");
    await page.run(`document.getElementById("tab-control").click()`);
}

// Presses Alt and a key of another keyboard, and waits for what is said.
async function pressKey(key, code, expected) {
    await page.run(`document.getElementById("answer").textContent = ""`);
    await page.press(key, code, true);
    await answers(expected);
    await idle();
}

async function keyboards() {
    await choose("hello");
    await press("S", "step 1");
    const tried = [["y", "KeyZ", "no trap"], ["z", "KeyY", "back at step 0"], ["ß", "KeyS", "step 1"]];
    tried.push(["ы", "KeyS", "step 2"], ["à", "Digit0", "back at step 0"], ["S", "KeyS", "step 1"]);
    for (const [key, code, expected] of tried) {
        const wrong = await pressKey(key, code, expected).then(() => "", (error) => error.message);
        check(`Alt and ${key} at ${code}`, !wrong, wrong);
    }
}

// Presses Control and a key; `commands` are those of the browser's editor.
async function control(key, code, windowsVirtualKeyCode, commands = []) {
    const words = { key, code, modifiers: 2, windowsVirtualKeyCode };
    await page.call("Input.dispatchKeyEvent", { type: "rawKeyDown", ...words, commands });
    await page.call("Input.dispatchKeyEvent", { type: "keyUp", ...words });
}

const pause = () => new Promise((done) => setTimeout(done, 1500));
const undo = () => control("z", "KeyZ", 90, ["undo"]);

async function editing() {
    await choose("hello");
    const before = sourceOf("hello");
    await typeOver("# H", "# abc");
    const typed = await text();
    await pause(); // what is typed without one is undone as one
    await control("]", "BracketRight", 221);
    same("Control and ] indents", await text(), typed.split("\n").map((it) => it.replace(/^(.*# abc)/, "        $1")).join("\n"));
    await undo();
    same("it can be undone", await text(), typed);
    await undo();
    same("and what was typed before, too", await text(), before);
    const end = before.indexOf("# H") + 3;
    await page.run(source.select(end, end));
    await page.press("Enter");
    await type("nop");
    same("Enter keeps the indentation", await text(), before.replace("# H", "# H\n        nop"));
    await undo();
    await undo();
    await page.until(`${source.text} === ${JSON.stringify(before)}`);
    check("and can be undone", true);
    await page.run(`${source.editor}.replaceSelection("# a\\r\\n# b\\r", "end", "paste")`);
    same("what is pasted gets the line ends of the source", (await text()).match(/# a.*?# b./s)[0], "# a\n# b\n");
    await choose("timer");
    await page.run(`${source.editor}.focus()`);
    await undo();
    same("Undo doesn't go back to another program", await text(), sourceOf("timer"));
}

await learn(lines, faults, console_, names, keyboards, editing);
