// node web/tests/sources.mjs PROGRAM: how sources are coloured, counted and searched for labels, and links with very many
// breakpoints.
import fs from "node:fs";
import { colourLine, labelsOf } from "../language.mjs";
import { countLines } from "../lines.mjs";
import { writeFragment } from "../links.mjs";
import { check, contains, same } from "./checks.mjs";
import { answer, choose, lab, learn, open, page, top, url } from "./user.mjs";

// What has a colour in a line, each with its kind.
const coloured = (line) => [...colourLine(line).matchAll(/class="cm-(\w+)">(.*?)</g)].map(([, kind, text]) => `${kind} ${text}`);

const COLOURS = [
    ["end :", "label end :"],
    ["x: y :nop", "label x:|label y :|mnemonic nop"],
    ["1 :\tnop", "label 1 :|mnemonic nop"],
    ["1:nop", "label 1:|mnemonic nop"],
    ["01: nop", "number 01|name nop"],
    [".text : nop", "label .text :|mnemonic nop"],
    ["nop // a: b # c", "mnemonic nop|comment // a: b # c"],
    ["nop # a // b", "mnemonic nop|comment # a // b"],
    [`.asciz "# 1 // 2"   // 3`, `directive .asciz|string "# 1 // 2"|comment // 3`],
    ["li a0,'#' # c", "mnemonic li|register a0|string '#'|comment # c"],
];

// No browser is needed for these: they are told with the others.
async function texts() {
    for (const [line, colours] of COLOURS) same(`the colours of ${line}`, coloured(line).join("|"), colours);
    const counts = [["", 0], ["nop", 1], ["nop\n", 1], ["nop\n\n", 2], ["\n", 1], ["nop\nnop", 2]];
    for (const [text, count] of counts) same(`the lines of ${JSON.stringify(text)}`, countLines(text), count);
    const source = "a: b : 1: c:nop # d: e:\n// f:\nend :\n\t.text: .asciz \"g: h:\"\n01: i:\na: j nop\n";
    same("each label of a line is one, and nothing else", labelsOf(source, 100).join(), "a,b,c,end,.text");
    same("some are enough", labelsOf(source, 2).join(), "a,b");
    const long = "nop ".repeat(250000), html = colourLine(long);
    check("a line of 1 MB has colours at its beginning alone", html.startsWith("<span") && html.match(/<span/g).length < 1000);
    same("and all of its text", html.replace(/<.*?>/g, "") === long, true);
}

// The lab's own count is in the transcripts of the lessons.
async function counted() {
    for (const name of ["mepc", "session", "task", "timer"]) {
        const file = name === "session" ? name : `lab/${name}`;
        await choose(file);
        const [, count] = fs.readFileSync(`${top}/examples/lab/${name}.lab.stdout`, "utf8").match(/: (\d+ lines), /);
        contains(`${file} has as many lines as the lab says`, await answer(), new RegExp(`^Assembled: ${count}\\.`));
    }
    await open("        nop");
    contains("one line is one", await answer(), /^Assembled: 1 line\./);
}

async function labelled() {
    await open("first: second :     .word 1\nend :\n        .word 2 // third:\n");
    await page.run(`document.getElementById("tab-memory").click()`);
    await page.run(`(() => {
        const input = document.getElementById("memory-where");
        input.value = "first";
        input.dispatchEvent(new Event("change"));
    })()`);
    const row = `document.querySelector("#panel-memory tbody td:last-child")?.textContent`;
    await page.until(`${row}?.includes("first")`);
    same("all labels of a line stand in memory", await page.run(row), "◀ pc, first, second, end");
    const marked = `[...document.querySelectorAll("#panel-memory tbody mark")].slice(0, 2)
        .map((it) => it.textContent + it.title).join()`;
    same("and the bytes that they name are marked", await page.run(marked), "01◀ pc, first, second,02end");
}

const OPENED = 5000; // milliseconds at most in which a link is opened

// Opens a link with these breakpoints, and returns how many are set, and what is said.
async function setBy(breakpoints) {
    const source = "        nop\n".repeat(3000), fragment = await writeFragment({ source, inputs: "", breakpoints });
    const began = performance.now();
    await page.visit(`${url}#${fragment}`);
    const time = performance.now() - began, said = await answer();
    check(`a link with ${breakpoints.length} breakpoints is opened in ${Math.round(time)} ms`, time < OPENED);
    await lab("b", "");
    await page.until(`/^\\w{8}/m.test(document.getElementById("answer").textContent)`);
    return { said, count: (await answer()).match(/^[0-9a-f]{8} /gm).length };
}

async function manyBreakpoints() {
    const all = await setBy(Array.from({ length: 200000 }, (_, i) => i + 1));
    same("of very many breakpoints of a link some are set", all.count, 1000);
    contains("and the others told", all.said, /^Of its breakpoints 2000 are left out\.$/m);
    const one = await setBy(Array.from({ length: 200000 }, () => 7));
    same("one that comes again and again is set once", one.count, 1);
    const odd = await setBy([3, -1, 0, 3001, 2.5, "4", null, 3000]);
    same("one at no line isn't", odd.count, 2);
    check("and nothing is told of it", !odd.said.includes("left out"));
}

await learn(texts, counted, labelled, manyBreakpoints);
