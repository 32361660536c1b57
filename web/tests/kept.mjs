// node web/tests/kept.mjs PROGRAM: what is typed outlives a reload and a closed tab, and where it can't be kept the
// browser asks before the page is left.
import { check, contains, same } from "./checks.mjs";
import * as source from "./source.mjs";
import { agree, answers, choose, clickLine, idle, learn, mark, page, press, sourceOf, typeOver, url } from "./user.mjs";

const text = (tab = page) => tab.run(source.text);
const said = (tab = page) => tab.text("#answer");
const value = (id) => page.run(`document.getElementById("${id}").value`);

// Types into the field of an id.
const put = (id, it) => page.run(`(() => {
    const field = document.getElementById("${id}");
    field.value = ${JSON.stringify(it)};
    field.dispatchEvent(new Event("input"));
})()`);

async function reloaded() {
    await choose("hello");
    await clickLine(4);
    await answers("breakpoint at line");
    await idle();
    await typeOver("# H", "# mine");
    await put("inputs", "5 rx 41\n");
    await put("pages", 300);
    await page.reload();
    same("a typed text outlives a reload", await text(), sourceOf("hello").replace("# H", "# mine"));
    contains("a line says so", await said(), /^Assembled: .*\nRestored: hello\.s as it was typed in this tab, and not saved\.$/s);
    same("the timed list stays, too", await value("inputs"), "5 rx 41\n");
    same("and the size of memory", await value("pages"), "300");
    same("and the breakpoint", await mark(4), "●");
    const asked = page.asked.length;
    await page.click("#load");
    await agree();
    await answers("Assembled");
    contains("it still counts as not saved", page.asked.slice(asked).join(), /aren't saved/);
}

async function faulty() {
    await choose("hello");
    await typeOver("li ", "LI ");
    await page.reload();
    same("a text with a fault outlives a reload", await text(), sourceOf("hello").replace("li ", "LI "));
    contains("with its fault", await said(), /E4 UnknownWord.*\nRestored: /s);
}

async function savedText() {
    await choose("timer");
    await typeOver("# ", "# my ");
    await page.click("#save");
    await page.saved("timer.s");
    await page.reload();
    same("a saved text is there after a reload", await text(), sourceOf("timer").replace("# ", "# my "));
    check("and isn't told as one that isn't saved", !(await said()).includes("Restored"));
    await choose("hello");
}

// A second tab of the same browser.
async function closedTab() {
    const first = await page.beside(url);
    await first.ready();
    same("a new tab doesn't get what is typed in another", await text(first), sourceOf("hello"));
    await first.run(source.put("# typed and lost\n"));
    await first.until(`Object.values(localStorage).some((it) => it.includes("typed and lost"))`);
    await first.leave();
    await page.click("#link");
    await page.until(`location.hash.length > 10`);
    const linked = await page.beside(await page.run("location.href"));
    await linked.ready();
    same("a tab with a link gets its program", await text(linked), sourceOf("hello"));
    await linked.leave();
    const second = await page.beside(url);
    await second.ready();
    same("a text typed in a closed tab is restored in the next one", await text(second), "# typed and lost\n");
    contains("a line says so", await said(second), /Restored: hello\.s as it was typed in a tab that was closed/);
    const others = `Object.keys(localStorage).filter((it) => !it.startsWith("rvboard")).join()`;
    same("which goes on with its entry", await second.run(others), "");
    const third = await page.beside(url);
    await third.ready();
    same("and in that one alone", await text(third), sourceOf("hello"));
    await third.leave();
    await second.leave();
}

// Fills the local storage.
const fill = () => page.run(`(() => {
    let count = 0;
    for (let size = 1 << 22; size >= 1; size >>= 1) {
        try {
            for (;;) localStorage.setItem("filler " + count++, "x".repeat(size));
        } catch {}
    }
})()`);

async function noRoom() {
    await choose("hello");
    await typeOver("# H", "# kept");
    const asked = page.asked.length;
    await page.reload();
    same("a text that is kept is left without a question", page.asked.length, asked);
    await fill();
    await typeOver("# kept", `# ${"lost ".repeat(2000)}`);
    await page.reload();
    same("one for which there is no room is asked for", page.asked.slice(asked).join(), "beforeunload");
    await page.run("localStorage.clear()");
    await choose("hello");
    await press("S", "step 1");
}

await learn(reloaded, faulty, savedText, closedTab, noRoom);
