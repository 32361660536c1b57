// node web/tests/access.mjs: what a reader of the page with a keyboard, a screen reader or weak eyes needs:
// names and roles of all controls, the order of focus, contrast in light and dark, and nothing cut at sizes in
// use.
import { fileURLToPath } from "node:url";
import { check, finish, same } from "./checks.mjs";
import { openPage } from "./chromium.mjs";
import { broken } from "./rules.mjs";
import { text } from "./source.mjs";

const url = `file://${fileURLToPath(new URL("../../out/web/index.html", import.meta.url))}`;
const ROLES = ["banner", "main", "toolbar", "tablist", "tabpanel", "log", "status"];
const ORDER = [
    ...["example", "load", "open", "save", "link", "lessons"],
    ...["assemble", "run", "pause", "step", "over", "out", "back", "undo", "reset", "trap", "why", "break"],
    "speed",
    ...["find", "text", "split-source", "format", "answer", "ask-line", "console", "send-text", "tab-control"],
];
const CONTROLS = new Set(["button", "textbox", "combobox", "checkbox", "switch", "tab", "listbox", "link"]);

const TABS = ["control", "memory", "stack", "listing", "instruction", "traps", "devices", "protection", "repeat"];

// Opens a tab: not by the mouse, since what the tab before shows may still come and move it.
async function openTab(page, tab) {
    await page.run(`document.getElementById("tab-${tab}").click()`);
    await page.until(`!document.getElementById("panel-${tab}").hidden`);
}

// Does a check with each of the tabs in front.
async function inEachTab(page, look) {
    for (const tab of TABS) {
        await openTab(page, tab);
        await look(tab);
    }
    await openTab(page, "control");
}

async function names(page, tab) {
    const { nodes } = await page.call("Accessibility.getFullAXTree");
    const seen = nodes.filter((node) => !node.ignored && CONTROLS.has(node.role?.value));
    const unnamed = seen.filter((node) => !node.name?.value).map((node) => node.role.value);
    const isNamed = seen.length >= 30 && unnamed.length === 0;
    check(`${tab}: all of ${seen.length} controls have a name`, isNamed, unnamed.join(" "));
}

async function roles(page) {
    const { nodes } = await page.call("Accessibility.getFullAXTree");
    const roles = nodes.map((node) => node.role?.value);
    for (const role of ROLES) check(`there is a ${role}`, roles.includes(role));
}

async function focusOrder(page) {
    await page.run(`document.activeElement.blur()`);
    const order = [];
    for (let i = 0; i < 60; i++) {
        await page.press("Tab");
        order.push(await page.run("document.activeElement.id"));
        if (order.at(-1) === ORDER.at(-1)) break;
    }
    const met = order.filter((id) => ORDER.includes(id));
    same("the focus goes in the order of reading", met.join(" "), ORDER.join(" "));
    await page.run(`document.getElementById("tab-control").focus()`);
    await page.press("ArrowRight");
    same("arrows move among the tabs", await page.run("document.activeElement.id"), "tab-memory");
}

async function rules(page, name) {
    same(`${name}: no rule is broken`, (await page.run(`(${broken})()`)).join("\n"), "");
}

// The rules find what breaks them.
async function plantedFaults(page) {
    await page.run(`document.body.insertAdjacentHTML("beforeend", \`<div id="odd"><h6 id="odd">x</h6><button aria-label="y">x</button>
        <i tabindex="3" aria-describedby="nowhere">x</i><ul><b>x</b></ul></div>\`)`);
    const found = (await page.run(`(${broken})()`)).map((it) => it.split(":")[0]);
    await page.run(`document.getElementById("odd").remove()`);
    const wanted = ["an id stands twice", "a reference leads nowhere", "an order of focus of its own", "a name without the words that are seen"];
    wanted.push("a heading of a level that is skipped", "a list with what is no item");
    same("the rules find what breaks them", wanted.filter((it) => !found.includes(it)).join(), "");
}

// The least contrast of a text on what is behind it, over all texts in sight.
function leastContrast() {
    const parse = (colour) => colour.match(/[\d.]+/g).map(Number);
    const linear = (it) => (it <= 0.03928 ? it / 12.92 : ((it + 0.055) / 1.055) ** 2.4);
    const shares = [0.2126, 0.7152, 0.0722];
    const light = (colour) => shares.reduce((sum, share, i) => sum + share * linear(colour[i] / 255), 0);
    const behind = (element) => {
        const colour = parse(getComputedStyle(element).backgroundColor);
        if (colour[3] !== 0) return colour;
        return element.parentElement ? behind(element.parentElement) : [255, 255, 255];
    };
    const isText = (node) => node.nodeType === Node.TEXT_NODE && node.textContent.trim();
    const isSeen = (element) => element.checkVisibility() && [...element.childNodes].some(isText);
    const all = [...document.querySelectorAll("body *")].filter(isSeen).map((element) => {
        const both = [light(parse(getComputedStyle(element).color)), light(behind(element))];
        const ratio = (Math.max(...both) + 0.05) / (Math.min(...both) + 0.05);
        return { ratio, what: element.outerHTML.slice(0, 80) };
    });
    return all.reduce((least, it) => (it.ratio < least.ratio ? it : least));
}

async function contrast(page, theme) {
    const { ratio, what } = await page.run(`(${leastContrast})()`);
    check(`${theme}: the least contrast is ${ratio.toFixed(1)}, at least 4.5`, ratio >= 4.5, what);
}

const root = "document.documentElement";
const fits = (page) => page.run(`${root}.scrollWidth <= innerWidth`);
const size = (page) => page.run(`[${root}.scrollWidth, ${root}.scrollHeight]`);
const ready = (page) => page.until(`document.body.dataset.ready === "yes"`);

// The controls whose words are cut, and those that lie over another.
function misplaced() {
    const controls = [...document.querySelectorAll("button, select, input:not([hidden])")];
    const seen = controls.filter((it) => it.checkVisibility()).map((it) => [it, it.getBoundingClientRect()]);
    const isCut = ([it]) => it.tagName === "BUTTON" && it.scrollWidth > it.clientWidth + 1;
    const meet = (a, b) => a.left < b.right - 1 && b.left < a.right - 1 && a.top < b.bottom - 1 && b.top < a.bottom - 1;
    const isOver = ([, box], i) => seen.slice(0, i).some(([, other]) => meet(box, other));
    return seen.filter((it, i) => isCut(it) || isOver(it, i)).map(([it]) => it.id || it.textContent);
}

// Checks that nothing is cut with each tab in front.
async function placed(page, name) {
    const wrong = [];
    await inEachTab(page, async (tab) => {
        if (!(await fits(page))) wrong.push(`${tab}: ${await size(page)}`);
        wrong.push(...(await page.run(`(${misplaced})()`)));
    });
    check(`${name}: nothing is cut at the side, and no control is cut or lies over another`, !wrong.length, wrong);
}

const page = await openPage(url);
await ready(page);
await page.run(`document.getElementById("example").value = "interrupt"`);
await page.run(`document.getElementById("load").click()`);
await page.until(`${text}.startsWith("# External interrupts")`);
await roles(page);
await focusOrder(page);
await inEachTab(page, async (tab) => {
    await names(page, tab);
    await contrast(page, `${tab}, light`);
    await rules(page, tab);
});
await plantedFaults(page);
const isInSight = (await fits(page)) && (await page.run(`${root}.scrollHeight <= innerHeight`));
check("at 1280 by 720 all is in sight", isInSight, await size(page));
await placed(page, "at 1280 by 720");
await page.run(`${root}.style.fontSize = "200%"`);
await placed(page, "with text at twice its size");
await page.close();

const dark = await openPage(url, { dark: true });
await ready(dark);
await inEachTab(dark, (tab) => contrast(dark, `${tab}, dark`));
await dark.close();

const tablet = await openPage(url, { width: 768, height: 1024 });
await ready(tablet);
await placed(tablet, "on a tablet");
await tablet.run(`${root}.style.fontSize = "200%"`);
await placed(tablet, "on a tablet with text at twice its size");
await tablet.run(`document.getElementById("tab-repeat").scrollIntoView()`);
const bar = await tablet.run(`document.getElementById("controls").getBoundingClientRect().top`);
same("on a tablet the controls stay in sight below", bar, 0);
await tablet.close();

const phone = await openPage(url, { width: 390, height: 844, dark: true });
await ready(phone);
await placed(phone, "on a phone");
await contrast(phone, "on a phone");
await rules(phone, "on a phone");
same("a tab that is opened doesn't scroll the page", await phone.run("scrollY"), 0);
await phone.close();
finish();
