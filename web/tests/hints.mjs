// node web/tests/hints.mjs PROGRAM: what the page knows of a line and of a register, the search in the source, and the words
// that it offers.
import { fieldsOf, offersFor, statementWord } from "../reference.mjs";
import { check, contains, same } from "./checks.mjs";
import { editor, select } from "./source.mjs";
import { choose, lab, learn, open, page, press, quoted, sourceOf, text, type } from "./user.mjs";

const element = (id) => `document.getElementById(${quoted(id)})`;
const boxOf = `(({ x, y, width, height }) => ({ x, y, width, height }))`;

const register = (name) => page.run(`[...document.querySelectorAll("#registers li")]
    .find((it) => it.querySelector("b").textContent === ${quoted(name)}).textContent.replace(/\\s+/g, " ").trim()`);

const hintText = () => page.run(`${element("hint")}.innerText`);

// Waits until the hint says where a register last changed.
const changed = () => page.until(`/hanged/.test(${element("hint")}.innerText)`);

async function registers() {
    await open("        li a0,5\nloop:   addi a0,a0,-1\n        bnez a0,loop\n        la a1,end\n        nop\nend:    nop\n");
    await lab("s 13", "stopped after");
    const [a0, a1] = [await register("a0"), await register("a1")].map((it) => it.replace("*changed", ""));
    same("beside the hexadecimal stands the number", a0, "a0 00000000 0");
    same("or the label at an address", a1, "a1 80000018 end");
    await page.click("#registers li:nth-child(11)");
    await changed();
    const got = (await hintText()).split(/\s+/).join(" ");
    contains("a click on a register shows all formats", got, /hexadecimal 00000000 signed 0 unsigned 0 characters 0 binary 0{8} /);
    contains("and where it last changed", got, /Last changed with step 10, from 00000001: 80000004 <loop> line 2 loop: addi a0,a0,-1/);
    await page.press("Escape");
    await page.run(`document.querySelector("#registers li").focus()`);
    await page.press("ArrowRight");
    await page.press("Enter");
    await changed();
    contains("so do arrows and Enter", await hintText(), /^ra x1.*hasn't changed since reset/s);
    const { x, y } = await page.run(`document.querySelector("#registers li:nth-child(12)").getBoundingClientRect().toJSON()`);
    await page.call("Input.dispatchMouseEvent", { type: "mouseMoved", x: x + 40, y: y + 5 });
    await page.until(`/a1 x11.*step 1[23]/s.test(${element("hint")}.innerText)`);
    check("and a pointer that rests there", true);
    await press("S", "step 14");
    same("a step takes it away", await page.run(`${element("hint")}.hidden`), true);
    await page.call("Input.dispatchMouseEvent", { type: "mouseMoved", x: 5, y: 5 });
    await open("        li a0,1\n        li s1,200000\nagain:  addi s1,s1,-1\n        bnez s1,again\n        nop\n");
    await lab("c 400000", "still running");
    await page.click("#registers li:nth-child(11)");
    await changed();
    contains("a change far back is found, too", await hintText(), /Last changed with step 1, from 00000000/);
    await page.press("Escape");
}

// The fields and the immediate of a word, without a browser.
const fields = (word) => {
    const { parts, immediate } = fieldsOf(word);
    return [...parts.map(({ name, value }) => `${name} ${value}`), immediate].join();
};

async function decoded() {
    same("the fields of add", fields(0x00750533), "funct7 0,rs2 7,rs1 10,funct3 0,rd 10,opcode 51,");
    same("of a load", fields(0xffc12503), "imm[11:0] 4092,rs1 2,funct3 2,rd 10,opcode 3,-4");
    same("of a store", fields(0xfe112e23).split(",").at(-1), "-4");
    same("of a branch", fields(0xfe051ee3).split(",").at(-1), "-4");
    same("of a jump", fields(0xffdff06f).split(",").at(-1), "-4");
    same("of lui", fields(0x123457b7), "imm[31:12] 74565,rd 15,opcode 55,74565");
    same("of a shift", fields(0x40255513).split(",").slice(0, 2).join(), "funct7 32,shamt 2");
    same("of csrrwi", fields(0x30045073).split(",").slice(0, 2).join(), "csr 768,uimm 8");
    same("what is no instruction has none", fields(0xffffffff), "");
    const tried = [["x: y: add a0,a0,a1", "add"], ["add:", ""], ["  .word 1", ".word"], ["# nop", ""], ["1: j 1b", "j"]];
    for (const [line, word] of tried) same(`the word of ${line}`, statementWord(line), word);
}

async function hint() {
    await choose("hello");
    const line = sourceOf("hello").split("\n").findIndex((it) => /\bsw\b/.test(it)) + 1;
    const { left, top, bottom } = await page.run(`${editor}.charCoords({ line: ${line - 1}, ch: 9 }, "window")`);
    await page.call("Input.dispatchMouseEvent", { type: "mouseMoved", x: left, y: (top + bottom) / 2 });
    await page.until(`!${element("hint")}.hidden`);
    const text = await page.run(`${element("hint")}.innerText`);
    const got = text.split(/\s+/).join(" ");
    contains("a pointer that rests on an instruction gets its fields", got, /imm\[11:5\] rs2 rs1 funct3 imm\[4:0\] opcode/);
    contains("with their bits", got, /0000000 01010 00101 010 00000 0100011/);
    contains("and the line of the reference", text, /sb sh sw · rs2,m/);
    await page.press("Escape");
    check("Escape takes it away", await page.run(`${element("hint")}.hidden`));
    await page.run(`${element("tab-instruction")}.click()`);
    await page.until(`document.getElementById("panel-instruction").textContent.includes("opcode")`);
    await page.run(`${element("tab-listing")}.click()`);
    await page.until(`document.querySelector("#panel-listing tr[data-line='${line}']")`);
    const row = await page.run(`${boxOf}(document.querySelector("#panel-listing tr[data-line='${line}']").getBoundingClientRect())`);
    await page.call("Input.dispatchMouseEvent", { type: "mouseMoved", x: row.x + 30, y: row.y + row.height / 2 });
    await page.until(`!${element("hint")}.hidden`);
    contains("in the listing, too", await hintText(), /funct3.*sb sh sw · rs2,m/s);
    await page.press("Escape");
    await page.run(`${element("tab-instruction")}.click()`);
    await page.until(`document.getElementById("panel-instruction").textContent.includes("opcode")`);
    contains("the instruction at pc has a tab", await page.text("#panel-instruction"), /lui · rd,u/);
    await page.run(`${element("tab-control")}.click()`);
}

async function key(name, code, modifiers, windowsVirtualKeyCode) {
    const words = { key: name, code, modifiers, windowsVirtualKeyCode };
    await page.call("Input.dispatchKeyEvent", { type: "rawKeyDown", ...words });
    await page.call("Input.dispatchKeyEvent", { type: "keyUp", ...words });
}

const selected = () => page.run(`${editor}.getSelection()`);
const caret = () => page.run(`${editor}.indexFromPos(${editor}.getCursor("from"))`);

async function search() {
    await choose("hello");
    await page.run(select(0, 0));
    await key("f", "KeyF", 2, 70);
    await page.type("SW");
    const source = sourceOf("hello"), first = source.indexOf("sw"), second = source.indexOf("sw", first + 1);
    same("Control+F searches as one types, whatever the case", `${await selected()} ${await caret()}`, `sw ${first}`);
    same("all places are counted", await page.text("#find-count"), "1 of 2");
    same("and marked", await page.run(`document.querySelectorAll(".cm-found").length`), 2);
    await page.press("Enter");
    same("Enter goes on", await caret(), second);
    await page.press("Enter");
    same("and round", await caret(), first);
    await page.press("Escape");
    same("Escape ends it in the source", await page.run("document.activeElement.id"), "text");
    same("without marks", await page.run(`document.querySelectorAll(".cm-found").length`), 0);
}

async function words() {
    const offers = (line) => offersFor(line, ["t0", "t1", "sp"], ["table", "text"]).offered.join();
    same("registers and labels are offered as operands", offers("x:  lw t0,t"), "t0,t1,table,text");
    same("none in a comment", offers("        nop # t"), "");
    await open("table:  .word 1\n        \n");
    await page.run(select(24, 24));
    await type("csrr");
    await key(" ", "Space", 2, 32);
    await page.until(`document.querySelector(".CodeMirror-hint")`);
    const offered = await page.run(`[...document.querySelectorAll(".CodeMirror-hint")].map((it) => it.textContent).join()`);
    same("Control and the space bar offer words", offered, "csrrc,csrrci,csrrs,csrrsi,csrrw,csrrwi");
    await page.press("ArrowDown");
    const chosen = `document.getElementById(${element("text")}.getAttribute("aria-activedescendant")).textContent`;
    same("a screen reader gets the chosen one", await page.run(chosen), "csrrci");
    await page.press("Enter");
    same("Enter takes it", await text(), "table:  .word 1\n        csrrci\n");
    await type(" t0,ta");
    await key(" ", "Space", 2, 32);
    same("a word that alone fits is put in", await text(), "table:  .word 1\n        csrrci t0,table\n");
}

await learn(registers, decoded, hint, search, words);
